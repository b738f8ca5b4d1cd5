// Yjs, which tests/bench.py `peers` runs beside the program: a document with one text, edited and merged by the lines of a
// script whose places are numbers, since Yjs knows no lines. Its files are updates of its own. Each edit is a transaction.
"use strict";
const fs = require("fs");
const Y = require("yjs");

const words = process.argv.slice(3);
const option = (name) => (words.includes(name) ? words[words.indexOf(name) + 1] : undefined);
const doc = new Y.Doc();
doc.clientID = Number(option("--site"));
const text = doc.getText("t");
const take = (file) => Y.applyUpdate(doc, fs.readFileSync(file));

const replies = [];
if (option("--log")) take(option("--log"));
for (const line of fs.readFileSync(0, "utf8").split("\n")) {
  const first = line.indexOf(" ");
  const second = line.indexOf(" ", first + 1);
  switch (line.slice(0, first)) {
    case "insert":
      text.insert(Number(line.slice(first + 1, second)), line.slice(second + 1).replaceAll("\\n", "\n"));
      replies.push("=");
      break;
    case "delete":
      text.delete(Number(line.slice(first + 1, second)), Number(line.slice(second + 1)));
      replies.push("=");
      break;
    case "receive":
      take(line.slice(first + 1));
      replies.push("=");
      break;
    case "lines":
      replies.push(`= ${text.toString().split("\n").length + 1}.0`);
      break;
    case "text":
      replies.push(`= "${text.toString().replaceAll("\n", "\\n")}\\n"`);
      break;
  }
}
if (replies.length) process.stdout.write(replies.join("\n") + "\n");
if (option("--out")) fs.writeFileSync(option("--out"), Y.encodeStateAsUpdate(doc));
