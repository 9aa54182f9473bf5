// The sentences of later pages in Español: see en.js.

export default {
  helpMore: "Dos dedos mueven y amplían; mientras uno dibuja, otro mueve el tablero. Lo dibujado se guarda en este "
    + "navegador hasta un día después del final de la ronda.",
  helpAll: "T|una prueba, R la quita|Av Pág, Re Pág|el puzle siguiente, el anterior|Ctrl + Intro|entregar",
  helpSlitherlink: "Clic en un lado|línea, cruz, nada|Otro botón, o ✕|cruz|Arrastrar de punto a punto|dibujar o "
    + "borrar líneas|▦ y clic|sombrear: dentro, fuera|Flechas|ir por los puntos|Mayús + flecha|dibujar o borrar en "
    + "el camino|W A S D|cruz arriba, izquierda, abajo, derecha del punto|I, O|la casilla abajo a la derecha está "
    + "dentro, fuera",
  helpNurikabe: "Clic en una casilla|muro, punto, nada|Otro botón, o •|punto|Arrastrar|lo mismo en más "
    + "casillas|Flechas|mover|Espacio|muro, punto, nada|Mayús + flecha|llevar la marca|W, D, Retroceso|muro, punto, "
    + "nada",
  helpSudoku: "Clic, flechas|elegir una casilla|Arrastrar, Mayús o Ctrl|elegir más casillas|1 a 9, A a P|escribir "
    + "un número (A es 10)|Dos cifras rápidas|un número mayor que 9|Mayús + número|notas en el borde, una tecla "
    + "cada una|Ctrl + número|notas en el centro|Espacio|notas sí o no|Q, S, W, X|números, borde, centro, "
    + "colores|Retroceso|borrar|Ctrl + A, Escape|elegir todas, una",
  lastAnswer: "tu última respuesta",
  yourAnswer: "tu respuesta",
  noAnswer: "Sin respuesta.",
  noneBefore: "Antes del comienzo no hay.",
  protestHead: "Una protesta",
  protestWhat: "Qué está mal, en {n} signos como mucho",
  protestMake: "Protestar",
  protestEmpty: "Di qué está mal, por favor.",
  protestSign: "“{sign}” no se puede enviar: usa solo letras simples (de la a a la z), cifras y signos.",
  protestLong: "Son {n} signos, y se pueden enviar {most} como mucho.",
  protestLeft: "quedan {n}",
  protestPuzzle: "Puzle {number} ",
  protestsLater: "Se puede protestar desde el final.",
  protestsOver: "El tiempo de protestas ha terminado.",
  noProtest: "No has protestado.",
  open: "abierta",
  upheld: "aceptada, {points} puntos",
  rejected: "rechazada",
  noTable: "La tabla aún no está publicada.|La dirección la publica cuando acaba el tiempo de protestas y todas "
    + "están decididas.",
  print: "Imprimir",
  rank: "Puesto",
  name: "Nombre",
  points: "Puntos",
  rulesSudoku: "Escribe un número en cada casilla vacía, de modo que cada fila, cada columna y cada caja tenga cada "
    + "número una vez.",
  rulesSlitherlink: "Dibuja un solo bucle cerrado por los puntos, sin cruces ni ramas. Un número dice cuántos de "
    + "los cuatro lados de su casilla son del bucle.",
  rulesNurikabe: "Haz muro algunas casillas. Todo el muro está unido, y ningún cuadro de dos por dos es todo muro. "
    + "Cada isla de las otras casillas tiene un número, que dice cuántas casillas tiene. Las que se tocan solo en "
    + "una esquina no están unidas.",
  rulesMore: "Cada puzle tiene exactamente una solución.",
  aboutProved: "Qué está demostrado, y qué no",
  aboutProvedText: "La sala juzga las respuestas. Es un programa demostrado: un veredicto es correcto justo cuando "
    + "la respuesta no rompe ninguna regla, y una respuesta aceptada queda. Esta página no está demostrada. Se "
    + "probó en navegadores. Muestra los puzles, escribe tus respuestas y las envía; cuenta lo que la sala recibió, "
    + "y está en Mis respuestas como la sala lo dice.",
  aboutKept: "Qué se guarda y dónde",
  aboutKeptText: "Tu clave se guarda solo en esta pestaña, hasta que salgas o la cierres. Lo que dibujas, los "
    + "puzles de la ronda y las respuestas en camino se guardan en este navegador hasta un día después del final. "
    + "Quien use este navegador con tu clave los ve.",
  aboutLine: "Si falla la conexión",
  aboutLineText: "Sigue dibujando. Una respuesta entregada se guarda y vuelve a salir hasta que la sala conteste; "
    + "la sala la toma una vez. Solo cuenta el momento en que llega a la sala.",
  aboutPage: "Si falla la página",
  aboutPageText: "Recárgala: lo dibujado queda, salvo que la página diga que este navegador no guarda nada más. Si no "
    + "ayuda, usa otro navegador u ordenador con tu clave; allí empiezas con el tablero vacío, pero lo que la sala "
    + "recibió queda. Si no, llama a la dirección.",

  // pictures in words
  tellSlitherlink: "Líneas horizontales, fila por fila: {across}. Verticales: {upright}.",
  tellRow: "Fila {row}: {cells}.",
  pictureName: "{words}. {kind}, {cols} por {rows}. {told}",
  white: "blanca",
  none: "ninguna",
};
