// The service worker of a served page: keeps its files, so that it opens without a network. FILES
// and SUM are put in when the site is made; another page has another SUM, and with it a store of
// its own.

/* global self, caches, FILES, SUM */
const STORE = `nonobench-${SUM}`;

self.addEventListener('install', (event) => {
  event.waitUntil(
      caches.open(STORE).then((store) => store.addAll(FILES)).then(() => self.skipWaiting())
  );
});

self.addEventListener('activate', (event) => {
  const isOld = (name) => name.startsWith('nonobench-') && name !== STORE;
  event.waitUntil(
      caches.keys()
          .then((names) => Promise.all(names.filter(isOld).map((name) => caches.delete(name))))
          .then(() => self.clients.claim())
  );
});

// What was kept is answered; anything else is asked of the network, as without this worker.
self.addEventListener('fetch', (event) => {
  if (event.request.method !== 'GET') return;
  event.respondWith(
      caches.open(STORE).then(
                            (store) => store.match(event.request, {ignoreSearch: true})
      ).then((stored) => stored ?? fetch(event.request))
  );
});
