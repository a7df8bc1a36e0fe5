// Says whether the browser has what the page needs, before anything else of the page runs; in words
// that each browser with scripts can read. Until then the page shows what it needs, and nothing
// else. It is a script of its own: what a browser cannot read it does not run at all.

(function() {
// A function that adds two vectors.
var simd = [
  0,  97, 115, 109, 1, 0,  0, 0,   1,  4,  1, 96,  0,  0,   3,   2, 1,  0,
  10, 16, 1,   14,  0, 65, 0, 253, 15, 65, 0, 253, 15, 253, 174, 1, 26, 11
];
var has = [
  function() {
    return WebAssembly.validate(new Uint8Array(simd));
  },
  function() {
    return CSS.supports('selector(:has(a))');
  },
  function() {
    return 'popover' in HTMLElement.prototype;
  },
  function() {
    return 'showModal' in HTMLDialogElement.prototype;
  },
  function() {
    return 'findLast' in Array.prototype;
  },
  function() {
    return 'roundRect' in OffscreenCanvasRenderingContext2D.prototype;
  },
  function() {
    return new DecompressionStream('gzip');
  }
];
try {
  for (var at = 0; at < has.length; at++)
    if (!has[at]()) return;
  document.documentElement.className = 'runs';
} catch (fault) {
  // What is not even named is not there.
}
})();
