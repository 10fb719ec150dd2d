/** The help in German (dialogs.js). */
export const help = `
Ein Klick auf einen Namen öffnet die Datei oder den Ordner; ⋯ in der Zeile zeigt, was Sie damit tun dürfen.
**Text hinzufügen** fügt am Ende eines Dokuments Zeilen an, auch wenn das jemand anderes gleichzeitig tut.
  **Bearbeiten** ersetzt alles und zeigt beide Texte, wenn jemand es inzwischen geändert hat; mit Häkchen kommt die
  alte Fassung in Ihren Papierkorb.
**Freigeben**: Namen eingeben und anklicken, was die Person darf.
**Entfernen** legt es in Ihren Papierkorb, wenn Sie einen haben: er steht neben der Liste (in einem schmalen Fenster
  hinter ☰). Ein neues Passwort bekommen Sie von Ihrer IT.
Eine Anfrage ohne Antwort wird erneut gesendet, auch nach dem Neuladen, und nur einmal ausgeführt.
Tasten: **Strg+/** führt zur Suche, **Alt+↑** zum Ordner darüber, **Strg+Z** macht rückgängig; in der Liste sucht **/**,
  **F2** benennt um, **Entf** entfernt, **Strg+A** wählt alles, **Strg+X** oder **Strg+C** und dann **Strg+V**
  verschieben oder kopieren in den gezeigten Ordner, und Buchstaben führen zu einem Namen; **Strg+S** speichert.
`;
