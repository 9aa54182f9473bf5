// The sentences of later pages in Deutsch: see en.js.

export default {
  helpMore: "Zwei Finger verschieben und zoomen; während einer zeichnet, verschiebt ein zweiter das Brett. Alles "
    + "Gezeichnete bleibt bis einen Tag nach dem Ende der Runde in diesem Browser.",
  helpAll: "T|ein Versuch, R nimmt ihn zurück|Bild ab, Bild auf|das nächste Rätsel, das davor|Strg + Enter|abgeben",
  helpSlitherlink: "Klick auf eine Seite|Linie, Kreuz, nichts|Andere Taste oder ✕|Kreuz|Ziehen von Punkt zu "
    + "Punkt|Linien zeichnen oder löschen|▦ und Klick|Feld färben: innen, außen|Pfeile|über die Punkte "
    + "gehen|Umschalt + Pfeil|unterwegs Linie zeichnen oder löschen|W A S D|Kreuz über, links, unter, rechts vom "
    + "Punkt|I, O|das Feld rechts unter dem Punkt ist innen, außen",
  helpNurikabe: "Klick auf ein Feld|Wand, Punkt, nichts|Andere Taste oder •|Punkt|Ziehen|dasselbe auf mehr "
    + "Feldern|Pfeile|gehen|Leertaste|Wand, Punkt, nichts|Umschalt + Pfeil|das Zeichen mitnehmen|W, D, "
    + "Rücktaste|Wand, Punkt, nichts",
  helpSudoku: "Klick, Pfeile|ein Feld wählen|Ziehen, Umschalt oder Strg|mehr Felder wählen|1 bis 9, A bis P|Zahl "
    + "schreiben (A ist 10)|Zwei Ziffern schnell|eine Zahl über 9|Umschalt + Zahl|Notizen am Rand, je eine "
    + "Taste|Strg + Zahl|Notizen in der Mitte|Leertaste|Notizen an oder aus|Q, S, W, X|Zahlen, Rand, Mitte, "
    + "Farben|Rücktaste|löschen|Strg + A, Esc|alle Felder, ein Feld wählen",
  lastAnswer: "deine letzte Antwort",
  yourAnswer: "deine Antwort",
  noAnswer: "Keine Antwort.",
  noneBefore: "Vor dem Start gibt es keine.",
  protestHead: "Ein Protest",
  protestWhat: "Was falsch ist, in höchstens {n} Zeichen",
  protestMake: "Protest einlegen",
  protestEmpty: "Bitte sag, was falsch ist.",
  protestSign: "„{sign}“ kann nicht gesendet werden: bitte nur einfache Buchstaben (a bis z), Ziffern und Zeichen.",
  protestLong: "Das sind {n} Zeichen, und höchstens {most} können gesendet werden.",
  protestLeft: "noch {n}",
  protestPuzzle: "Rätsel {number} ",
  protestsLater: "Proteste gibt es ab dem Ende.",
  protestsOver: "Die Zeit für Proteste ist vorbei.",
  noProtest: "Du hast keinen Protest eingelegt.",
  open: "offen",
  upheld: "stattgegeben, {points} Punkte",
  rejected: "abgelehnt",
  noTable: "Die Tabelle ist noch nicht veröffentlicht.|Die Leitung veröffentlicht sie, sobald die Zeit für Proteste "
    + "vorbei ist und jeder entschieden ist.",
  print: "Drucken",
  rank: "Rang",
  name: "Name",
  points: "Punkte",
  rulesSudoku: "Schreibe in jedes leere Feld eine Zahl, so dass jede Zeile, jede Spalte und jeder Block jede Zahl "
    + "einmal enthält.",
  rulesSlitherlink: "Zeichne einen einzigen geschlossenen Weg entlang der Punkte, ohne Kreuzungen und Abzweigungen. "
    + "Eine Zahl sagt, wie viele der vier Seiten ihres Feldes zum Weg gehören.",
  rulesNurikabe: "Mache einige Felder zu Wand. Alle Wand hängt zusammen, und nie sind zwei mal zwei Felder ganz "
    + "Wand. Jede Insel aus anderen Feldern enthält eine Zahl, die sagt, wie viele Felder sie hat. Felder, die sich "
    + "nur an einer Ecke berühren, hängen nicht zusammen.",
  rulesMore: "Jedes Rätsel hat genau eine Lösung.",
  aboutProved: "Was bewiesen ist, und was nicht",
  aboutProvedText: "Die Halle beurteilt die Antworten. Sie ist ein Programm, das bewiesen wurde: ein Urteil ist "
    + "genau dann richtig, wenn die Antwort keine Regel bricht, und eine angenommene Antwort bleibt. Diese Seite "
    + "ist nicht bewiesen. Sie wurde in Browsern erprobt. Sie zeigt die Rätsel, schreibt deine Antworten und sendet "
    + "sie; was zählt, ist, was die Halle erhalten hat, und das steht unter Meine Antworten, wie die Halle es sagt.",
  aboutKept: "Was wo aufbewahrt wird",
  aboutKeptText: "Dein Schlüssel bleibt nur in diesem Tab, bis du die Halle verlässt oder ihn schließt. Was du "
    + "zeichnest, die Rätsel der Runde und Antworten unterwegs bleiben bis einen Tag nach dem Ende der Runde in "
    + "diesem Browser. Wer diesen Browser mit deinem Schlüssel benutzt, sieht sie.",
  aboutLine: "Wo die Verbindung versagt",
  aboutLineText: "Zeichne weiter. Eine abgegebene Antwort ist aufbewahrt und geht wieder, bis die Halle antwortet; "
    + "die Halle nimmt sie einmal. Es zählt nur der Augenblick, in dem sie die Halle erreicht.",
  aboutPage: "Wo die Seite versagt",
  aboutPageText: "Lade sie neu: was du gezeichnet hast, bleibt, außer wenn die Seite sagt, dass dieser Browser nichts "
    + "mehr aufbewahrt. Hilft das nicht, nimm einen anderen Browser oder Rechner, mit deinem Schlüssel; dort beginnst "
    + "du mit leerem Brett, aber alles, was die Halle erhalten hat, steht. Sonst rufe die Leitung.",

  // pictures in words
  tellSlitherlink: "Waagrechte Linien, Zeile für Zeile: {across}. Senkrechte: {upright}.",
  tellRow: "Zeile {row}: {cells}.",
  pictureName: "{words}. {kind}, {cols} mal {rows}. {told}",
  white: "weiß",
  none: "keine",
};
