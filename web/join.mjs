// Joins the page's modules and the module of WebAssembly into one HTML file, and lays the same out
// as a folder for a site: join.mjs ROOT FOLDER [ENTRY]. FOLDER has nonobench.wasm; ENTRY is the
// page's first module, page/main.js where none is named. Nothing of the time or of paths goes in,
// so two builds of one commit by one esbuild have the same bytes. Without esbuild it ends with 77,
// and with a page that is too long with 1.
import {execFileSync, spawnSync} from 'node:child_process';
import {createHash} from 'node:crypto';
import {mkdirSync, readFileSync, writeFileSync, copyFileSync, rmSync} from 'node:fs';
import {join} from 'node:path';
import {gzipSync} from 'node:zlib';
import {signsOf} from '../page/engine/signs.js';
import {limitsOf} from './limits.mjs';
import {DE} from '../page/texts/de.js';
import {EN} from '../page/texts/en.js';
import {FR} from '../page/texts/fr.js';

const [root, folder, entry = join(root, 'page', 'main.js')] = process.argv.slice(2);
// How many bytes the page may have. tests/page/page_limit.mjs tries how soon it is ready.
const MOST = 1048576;
const FOLDERS = ['crates', 'web', 'page', 'examples'];      // what the page is made of
const EXAMPLES = ['balloon', 'heart', 'mushroom', 'boat'];  // the first is to be mended
const TEXTS = {
  en: EN,
  de: DE,
  fr: FR
};
const MANIFEST = {
  name: 'nonobench',
  short_name: 'nonobench',
  description: 'A workbench for multicolour nonograms',
  start_url: './',
  scope: './',
  display: 'standalone',
  icons: [
    {src: 'icon.svg', sizes: 'any', type: 'image/svg+xml'},
    {src: 'icon.png', sizes: '512x512', type: 'image/png'}
  ],
};
// Of these, the home screen of iOS takes only the PNG.
const ICONS = MANIFEST.icons.map(({src}) => src);

const read = (...parts) => readFileSync(join(root, ...parts), 'utf8');

// What git says of the repository; nothing where it is none.
function git(...words) {
  try {
    return execFileSync(
               'git',
               ['-C', root, ...words],
               {encoding: 'utf8', stdio: ['ignore', 'pipe', 'ignore']}
    ).trim();
  } catch {
    return '';
  }
}

// What git calls the folders that the page is made of, where they are in a repository.
function treesOf() {
  const names = git('rev-parse', ...FOLDERS.map((folder) => `HEAD:${folder}`)).split('\n');
  return names[0] ?
      Object.fromEntries(FOLDERS.map((folder, at) => [folder, names[at].slice(0, 12)])) :
      {};
}

// The last commit that changed what the page is made of. A later one, which puts the built page
// into the repository, has the same page. A clone without its history does not know it.
const commitOf = () =>
    (git('rev-parse', '--is-shallow-repository') === 'true' ?
         '' :
         git('log', '-1', '--format=%H', '--', ...FOLDERS).slice(0, 12));

// What a module comes to with all that it imports. What esbuild warns of is an error.
function bundled(file, ...words) {
  const {stdout, stderr, status} = spawnSync(
      'esbuild',
      [file, '--bundle', '--minify', '--target=es2022', '--log-level=warning', ...words],
      {encoding: 'utf8', maxBuffer: 1 << 26}
  );
  if (status !== 0 || stderr) throw new Error(`esbuild ${file}: ${stderr}`);
  return stdout.trimEnd();
}

// The tables of texts stand in the page beside its script: a browser reads only that of its
// language (page/texts/phrase.js).
const script = (file) => bundled(
    file,
    '--format=iife',
    `--define:LIMITS=${JSON.stringify(limitsOf(root))}`,
    '--define:globalThis.HAS_TEXTS_APART=true'
);
const dataOf = (value) => JSON.stringify(value).replaceAll('<', '\\u003c');
const hashOf = (text) => `'sha256-${createHash('sha256').update(text).digest('base64')}'`;

// What the page may do: it runs its own script and style alone, known by their hashes, and fetches
// nothing. A served page has its manifest with its icon, and the worker that keeps it for use
// without a network besides.
const policyOf =
    (codes, style, served) => ['default-src \'none\'',
                               `script-src ${codes.map(hashOf).join(' ')} 'wasm-unsafe-eval'`,
                               `worker-src blob:${served ? ' \'self\'' : ''}`,
                               ...(served ? ['manifest-src \'self\''] : []),
                               `style-src ${hashOf(style)}`,
                               `img-src data: blob:${served ? ' \'self\'' : ''}`,
                               'connect-src blob: data:',
                               'base-uri \'none\'',
                               'form-action \'none\'',
].join('; ');

function pageTexts(version) {
  const worker = Buffer.from(script(join(root, 'page', 'engine', 'worker.js')));
  const packed =
      gzipSync(Buffer.concat([worker, readFileSync(join(folder, 'nonobench.wasm'))]), {level: 9});
  packed[9] = 255;  // the system that packed it
  const drawing = script(join(root, 'page', 'import', 'frame.js'));
  const built = {
    drawing,
    packed: signsOf(packed),
    size: packed.length,
    worker: worker.length,
    version,
    commit: commitOf(),
    trees: treesOf()
  };
  const icon = Buffer.from(read('page', 'icon.svg')).toString('base64');
  // What must not stand in a script within HTML; esbuild takes care of the end of the script.
  const code = `\n${script(entry).replaceAll('<!--', '<\\!--')}\n`;
  const runs = `\n${bundled(join(root, 'web', 'runs.js'))}\n`;
  const style = `\n${bundled(join(root, 'page', 'styles', 'index.css'))}\n`;
  const parts = (served) => ({
    '<!-- head: policy, icon -->': `<meta http-equiv="Content-Security-Policy" content="${
        policyOf(
            [runs, code, drawing], style, served
        )}">\n<link rel="icon" href="data:image/svg+xml;base64,${icon}">${
        served ?
            '\n<link rel="apple-touch-icon" href="icon.png">\n<link rel="manifest" href="manifest.webmanifest">' :
            ''}`,
    '<!-- runs -->': `<script>${runs}</script>`,
    '<!-- style -->': `<style>${style}</style>`,
    '<!-- built -->': [
      ...EXAMPLES.map(
          (name) => `<script type="text/plain" data-example="${name}">${
              read('examples', `${name}.ppm`)}</script>`
      ),
      ...Object.entries(TEXTS).map(
          ([language, table]) =>
              `<script type="application/json" data-texts="${language}">${dataOf(table)}</script>`
      ),
      `<script type="application/json" id="built">${dataOf(built)}</script>`,
    ].join('\n'),
    '<!-- script -->': `<script>${code}</script>`,
  });
  return [filled(parts(false)), filled(parts(true))];
}

// The page's HTML with its parts in their places.
function filled(parts) {
  let text = read('page', 'index.html');
  for (const [place, part] of Object.entries(parts)) {
    const at = text.indexOf(place);
    if (at < 0) throw new Error(`page/index.html has no ${place}`);
    text = text.slice(0, at) + part + text.slice(at + place.length);
  }
  return text;
}

// Lays out the folder of a site: the page as index.html, and what a browser needs to keep it and to
// put it among its programs.
function writeSite(site, text) {
  rmSync(site, {recursive: true, force: true});
  mkdirSync(site, {recursive: true});
  const files = ['./', 'manifest.webmanifest', ...ICONS];
  const sum = createHash('sha256').update(text).digest('hex').slice(0, 16);
  writeFileSync(join(site, 'index.html'), text);
  for (const name of ICONS) copyFileSync(join(root, 'page', name), join(site, name));
  writeFileSync(join(site, 'manifest.webmanifest'), `${JSON.stringify(MANIFEST, null, 2)}\n`);
  writeFileSync(
      join(site, 'offline.js'),
      `${
          bundled(
              join(root, 'web', 'offline.js'),
              `--define:FILES=${JSON.stringify(files)}`,
              `--define:SUM=${JSON.stringify(sum)}`
          )}\n`
  );
}

if (spawnSync('esbuild', ['--version']).error) {
  console.log('web/join.mjs: skipped: no esbuild');
  process.exit(77);
}
const [, version] =
    /VERSION: &str = "([^"]+)"/.exec(read('crates', 'program_options', 'src', 'version.rt'));
const [alone, served] = pageTexts(version);
const size = Buffer.byteLength(alone);
if (size > MOST) {
  console.error(`web/join.mjs: the page has ${size} bytes, more than ${MOST}`);
  process.exit(1);
}
writeFileSync(join(folder, 'nonobench.html'), alone);
console.log(`web/join.mjs: the page has ${size} bytes, of at most ${MOST}`);
writeSite(join(folder, 'site'), served);
