// The sentences of later pages in Français: see en.js.

export default {
  helpMore: "Deux doigts déplacent et zooment ; pendant que l'un dessine, un second déplace la grille. Tes dessins "
    + "restent dans ce navigateur jusqu'à un jour après la fin de la manche.",
  helpAll: "T|un essai, R l'annule|Page suiv., Page préc.|le puzzle suivant, le précédent|Ctrl + Entrée|remettre",
  helpSlitherlink: "Clic sur un côté|ligne, croix, rien|Autre bouton, ou ✕|croix|Glisser de point en point|tracer "
    + "ou effacer des lignes|▦ et clic|colorer : dedans, dehors|Flèches|aller sur les points|Maj + flèche|tracer ou "
    + "effacer en chemin|W A S D|croix au-dessus, à gauche, dessous, à droite du point|I, O|la case en bas à droite "
    + "est dedans, dehors",
  helpNurikabe: "Clic sur une case|mur, point, rien|Autre bouton, ou •|point|Glisser|pareil sur d'autres "
    + "cases|Flèches|aller|Espace|mur, point, rien|Maj + flèche|emporter la marque|W, D, Retour|mur, point, rien",
  helpSudoku: "Clic, flèches|choisir une case|Glisser, Maj ou Ctrl|choisir plus de cases|1 à 9, A à P|écrire un "
    + "nombre (A vaut 10)|Deux chiffres vite|un nombre au-dessus de 9|Maj + nombre|notes au bord, une touche "
    + "chacune|Ctrl + nombre|notes au centre|Espace|notes oui ou non|Q, S, W, X|nombres, bord, centre, "
    + "couleurs|Retour|effacer|Ctrl + A, Échap|choisir tout, une case",
  lastAnswer: "ta dernière réponse",
  yourAnswer: "ta réponse",
  noAnswer: "Pas de réponse.",
  noneBefore: "Il n'y en a pas avant le début.",
  protestHead: "Une réclamation",
  protestWhat: "Ce qui ne va pas, en {n} signes au plus",
  protestMake: "Réclamer",
  protestEmpty: "Dis ce qui ne va pas.",
  protestSign: "« {sign} » ne peut pas être envoyé : seulement des lettres simples (a à z), chiffres et signes.",
  protestLong: "Ce sont {n} signes, et {most} au plus peuvent être envoyés.",
  protestLeft: "reste {n}",
  protestPuzzle: "Puzzle {number} ",
  protestsLater: "On réclame à partir de la fin.",
  protestsOver: "Le temps des réclamations est passé.",
  noProtest: "Tu n'as rien réclamé.",
  open: "ouverte",
  upheld: "admise, {points} points",
  rejected: "rejetée",
  noTable: "Le tableau n'est pas encore publié.|La direction le publie quand le temps des réclamations est passé et "
    + "que toutes sont tranchées.",
  print: "Imprimer",
  rank: "Rang",
  name: "Nom",
  points: "Points",
  rulesSudoku: "Écris un nombre dans chaque case vide, pour que chaque ligne, chaque colonne et chaque bloc ait "
    + "chaque nombre une fois.",
  rulesSlitherlink: "Trace une seule boucle le long des points, sans croisement ni branche. Un nombre dit combien "
    + "des quatre côtés de sa case sont de la boucle.",
  rulesNurikabe: "Fais de quelques cases un mur. Tout le mur se tient, et aucun carré de deux sur deux n'est tout "
    + "en mur. Chaque île des autres cases a un nombre, qui dit combien de cases elle a. Des cases qui se touchent "
    + "par un coin ne se tiennent pas.",
  rulesMore: "Chaque puzzle a exactement une solution.",
  aboutProved: "Ce qui est prouvé, et ce qui ne l'est pas",
  aboutProvedText: "La salle juge les réponses. C'est un programme prouvé : un verdict est juste exactement quand "
    + "la réponse n'enfreint aucune règle, et une réponse prise reste. Cette page n'est pas prouvée. Elle a été "
    + "essayée dans des navigateurs. Elle montre les puzzles, écrit tes réponses et les envoie ; ce qui compte est "
    + "ce que la salle a reçu, et c'est sous Mes réponses comme la salle le dit.",
  aboutKept: "Ce qui est gardé, et où",
  aboutKeptText: "Ta clé reste dans cet onglet seul, jusqu'à ce que tu quittes ou le fermes. Tes dessins, les "
    + "puzzles de la manche et les réponses en route restent dans ce navigateur jusqu'à un jour après la fin. Qui "
    + "se sert de ce navigateur avec ta clé les voit.",
  aboutLine: "Si la connexion manque",
  aboutLineText: "Continue à dessiner. Une réponse remise est gardée et repart jusqu'à ce que la salle réponde ; la "
    + "salle la prend une fois. Seul compte le moment où elle atteint la salle.",
  aboutPage: "Si la page manque",
  aboutPageText: "Recharge-la : tes dessins restent, sauf si la page dit que ce navigateur ne garde plus rien. Sinon "
    + "prends un autre navigateur ou ordinateur, avec ta clé ; là tu commences avec une grille vide, mais tout ce que "
    + "la salle a reçu reste. Sinon appelle la direction.",

  // pictures in words
  tellSlitherlink: "Traits horizontaux, rangée par rangée : {across}. Verticaux : {upright}.",
  tellRow: "Ligne {row} : {cells}.",
  pictureName: "{words}. {kind}, {cols} sur {rows}. {told}",
  white: "blanc",
  none: "aucun",
};
