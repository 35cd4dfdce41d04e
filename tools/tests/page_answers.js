// What the page of map-page answers, without a browser: node page_answers.js PAGE MOMENT < QUESTIONS
//
// The moment is in milliseconds from 1970. Each question is a line [latitude, longitude, service]; so is each answer: the
// identities found, the warnings and the error.
"use strict";

const fs = require("fs");
const path = require("path");
const vm = require("vm");

const FOLDER = path.join(__dirname, "..", "maptools", "page");
const [page, moment] = process.argv.slice(2);
for (const name of ["rules.js", "data.js", "words.js"]) {
  vm.runInThisContext(fs.readFileSync(path.join(FOLDER, name), "utf8"), name);
}

async function answer() {
  const data = /id="data">([^<]*)</.exec(fs.readFileSync(page, "utf8"))[1];
  const map = unpacked(await unzipped(bytesOf(data)));
  for (const line of fs.readFileSync(0, "utf8").trim().split("\n")) {
    const [latitude, longitude, service] = JSON.parse(line);
    const given = answerAt(map, { latitude, longitude }, serviceOf(service), Number(moment));
    const found = given.found.map((number) => map.mappings[number].sourceId);
    const reasons = reasonsFor(map, given);
    console.log(JSON.stringify({ found, warnings: given.warnings, error: given.error, reasons }));
  }
}

answer();
