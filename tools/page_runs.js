// Runs texts through the module of a built page, as the page's own script does.
//
// page_runs.js PAGE: takes runs as JSON on standard input, their texts as characters of a byte each, and prints what comes of each, as JSON.
'use strict';
const fs = require('fs');

const page = fs.readFileSync(process.argv[2], 'utf8');
const part = id => new RegExp(`<script [^>]*id="${id}">([^]*?)</script>`).exec(page)[1];
const { reportOf, stepsOf, Instance } = new Function(part('library') + '; return { reportOf, stepsOf, Instance };')();
const module_ = new WebAssembly.Module(Buffer.from(part('module'), 'base64'));
const bytes = text => Uint8Array.from(Buffer.from(text, 'latin1'));
const text = it => Buffer.from(it.bytes).toString('latin1');

const runs = JSON.parse(fs.readFileSync(0, 'utf8'));
const answers = runs.map(run => {
  const given = { schemas: run.schemas.map(bytes), modules: run.modules.map(bytes), script: bytes(run.script), rows: run.rows };
  const report = reportOf(module_, given);
  const steps = run.steps ? stepsOf(module_, given) : null;
  return { answer: report.answer, text: text(report), steps: steps && { answer: steps.answer, text: text(steps) } };
});
const instance = new Instance(module_).exports;
const imports = WebAssembly.Module.imports(module_).length;
const memory = Number(instance.malloc(1n << 33n));
process.stdout.write(JSON.stringify({ answers, imports, memory }));
