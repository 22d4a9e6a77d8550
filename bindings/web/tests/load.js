// The page's own scripts but for those that need a page, as node sees them, and the module that `bindings/web/build` made.
'use strict';
const fs = require('fs');
const path = require('path');
const vm = require('vm');

const root = path.join(__dirname, '..', '..', '..');
const read = (name) => fs.readFileSync(path.join(root, name));
const scripts = [...read('bindings/web/page.html').toString().matchAll(/^@script (bindings\/web\/src\/[^/]+)$/gm)].map((found) => found[1]);
for (const name of scripts) vm.runInThisContext(read(name).toString(), { filename: name });

const header = read('bindings/c/marrighentu.h').toString();
const engine = Marrighentu.engine(read('target/web/marrighentu.wasm'), header);

module.exports = { root, read, header, engine, Marrighentu };
