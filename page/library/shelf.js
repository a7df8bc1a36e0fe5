// Where the browser keeps things: a shelf of named values, over IndexedDB, else localStorage, else
// memory alone. Each shelf has `get`, `change`, `put`, `putAll`, `drop`, `keys` and `listed`, which
// answer promises; `lasts` tells whether a reload finds it again. `change(keys, f)` puts the
// entries that `f` makes of the values of some keys: nothing comes between. `listed(prefix)` has
// all keys, and the values of those that begin so. What is kept elsewhere while the database does
// not open goes there as soon as it does.

const SHELF_NAME = 'nonobench';
// milliseconds for a database that does not open: on a busy machine the first opening takes seconds
const SHELF_WAIT = 15000;

const settledRequest = (request) => new Promise((resolve, reject) => {
  request.onsuccess = () => resolve(request.result);
  request.onerror = () => reject(request.error);
});

const listOf = (keys, own, values) =>
    ({keys, values: new Map(own.map((key, at) => [key, values[at]]))});

// Each value is read alone: one that is damaged hides no other.
async function listedAlone(shelf, prefix) {
  const keys = await shelf.keys();
  const own = keys.filter((key) => String(key).startsWith(prefix));
  return listOf(keys, own, await Promise.all(own.map((key) => shelf.get(key).catch(() => null))));
}

// What shelves have in common: `put` and `putAll` are changes that ask for no value.
const whole = (shelf) => Object.assign(shelf, {
  put: (key, value) => shelf.change([], () => [[key, value]]),
  putAll: (entries) => shelf.change([], () => entries),
  listed: async (prefix) =>
      (await shelf.listedAtOnce?.(prefix).catch(() => null)) ?? listedAlone(shelf, prefix),
});

// What opens, and the same as long as it is waited for: it is refused once that takes long, or
// `open` calls what it is passed.
function openTimed(open) {
  /** @type {any} */
  let giveUp;
  const late = new Promise((_, reject) => {
    giveUp = () => reject(new DOMException('the database does not open', 'TimeoutError'));
  });
  const timer = setTimeout(giveUp, SHELF_WAIT);
  const opening = open(giveUp).finally(() => clearTimeout(timer));
  return {opening, inTime: Promise.race([opening, late])};
}

// A connection to the database. What was closed under the page is opened again at the next need.
// Where that takes long, all is refused until it is open, and `moved` is called then.
class Connection {
  constructor(home, moved) {
    this.home = home;
    this.moved = moved;
    /** @type {Promise<IDBDatabase> | null} */
    this.opened = null;
  }

  /** Opens the database. `blocked` is called where another page holds it. */
  async open(blocked) {
    const request = this.home.indexedDB.open(SHELF_NAME, 1);
    request.onupgradeneeded = () => request.result.createObjectStore('kept');
    request.onblocked = blocked;
    const database = await settledRequest(request);
    database.onclose = () => this.forget();
    database.onversionchange = () => {
      database.close();
      this.forget();
    };
    return database;
  }

  forget() {
    this.opened = null;
  }

  ready() {
    return this.opened ??= this.reopen();
  }

  reopen() {
    const {opening, inTime} = openTimed((isBlocked) => this.open(isBlocked));
    opening.then(() => {
      this.opened = opening;
    }, () => this.forget());
    inTime.catch(() => opening.then(this.moved, () => {}));
    return inTime;
  }

  async read(ask) {
    const database = await this.ready();
    return ask(database.transaction('kept', 'readonly').objectStore('kept'));
  }

  /** Writes; it is kept once its transaction is complete. */
  async write(act) {
    const database = await this.ready();
    const transaction = database.transaction('kept', 'readwrite', {durability: 'relaxed'});
    const done = new Promise((resolve, reject) => {
      transaction.oncomplete = () => resolve();
      transaction.onabort = transaction.onerror = () =>
          reject(transaction.error ?? new Error('not kept'));
    });
    act(transaction.objectStore('kept'));
    return done;
  }
}

// A shelf in a database of the browser. `blocked` is called where it may open late at first.
async function indexedShelf(home, blocked, moved) {
  const connection = new Connection(home, moved);
  await (connection.opened = connection.open(blocked));
  const read = (ask) => connection.read(ask);
  const write = (act) => connection.write(act);
  return whole({
    lasts: true,
    get: (key) => read((store) => settledRequest(store.get(key))),
    change: (keys, f) => write((store) => {
      const asked = keys.map((key) => store.get(key));
      const put = () => {
        for (const [key, value] of f(asked.map((one) => one.result))) store.put(value, key);
      };
      if (asked.length)
        asked.at(-1).onsuccess = put;  // the others have succeeded before it
      else
        put();
    }),
    drop: (...keys) => write((store) => {
      for (const key of keys) store.delete(key);
    }),
    keys: () => read((store) => settledRequest(store.getAllKeys())),
    listedAtOnce: (prefix) => read(async (store) => {
      const range = IDBKeyRange.bound(prefix, `${prefix}\uffff`);
      return listOf(...await Promise.all(
          [store.getAllKeys(), store.getAllKeys(range), store.getAll(range)].map(settledRequest)
      ));
    }),
  });
}

export function localShelf(storage) {
  const own = (key) => `${SHELF_NAME}:${key}`;
  const read = (key) => JSON.parse(storage.getItem(own(key)) ?? 'null') ?? undefined;
  return whole({
    lasts: true,
    get: async (key) => read(key),
    change: async (keys, f) => {
      const entries = f(keys.map(read));
      const before = entries.map(([key]) => [own(key), storage.getItem(own(key))]);
      try {
        for (const [key, value] of entries) storage.setItem(own(key), JSON.stringify(value));
      } catch (fault) {  // all of them or none
        for (const [key, text] of before)
          if (text === null) storage.removeItem(key);
        for (const [key, text] of before)
          if (text !== null) storage.setItem(key, text);
        throw fault;
      }
    },
    drop: async (...keys) => {
      for (const key of keys) storage.removeItem(own(key));
    },
    keys: async () => Array.from({length: storage.length}, (_, at) => storage.key(at))
                          .filter((key) => key.startsWith(own('')))
                          .map((key) => key.slice(own('').length)),
  });
}

export function memoryShelf() {
  const kept = new Map();
  const read = (key) => (kept.has(key) ? JSON.parse(kept.get(key)) : undefined);
  return whole({
    lasts: false,
    get: async (key) => read(key),
    change: async (keys, f) => {
      for (const [key, value] of f(keys.map(read))) kept.set(key, JSON.stringify(value));
    },
    drop: async (...keys) => {
      for (const key of keys) kept.delete(key);
    },
    keys: async () => [...kept.keys()],
  });
}

// The shelf of a browser whose database does not open.
function shelfWithout(home) {
  const probe = `${SHELF_NAME}:probe`;
  try {
    home.localStorage.setItem(probe, '1');
    home.localStorage.removeItem(probe);
    return localShelf(home.localStorage);
  } catch {
    return memoryShelf();
  }
}

// A value as the database takes it over, which may have another one by its key: the newer one has
// the key then, and an older one that comes is put beside it, under an id of its own.
function entryBeside(key, value, own) {
  const [when, its] = [value, own].map((one) => Number(one?.when) || 0);
  if (!own || its < when) return [[key, value]];
  const more = `-${when.toString(36)}`;
  return its === when ? [] : [[key + more, {...value, id: value.id + more}]];
}

// Takes what a shelf has over into the database: all of it or nothing. What is damaged stays, and
// what another tab keeps meanwhile.
async function takeOver(from, database) {
  const read = (key) => from.get(key).catch(() => null);
  const found = [];
  for (const key of await from.keys()) found.push([key, await read(key)]);
  const sound = found.filter(([, value]) => value);
  if (!sound.length) return;
  await database.change(
      sound.map(([key]) => key),
      (own) => sound.flatMap(([key, value], at) => entryBeside(key, value, own[at]))
  );
  for (const [key, value] of sound)
    if (JSON.stringify(await read(key)) === JSON.stringify(value)) await from.drop(key);
}

// A shelf for as long as the database does not open. Where that opens late, what is asked waits
// until all is taken over, and `moved` is called.
function shelfUntil(first, late, moved) {
  let [now, at] = [first, Promise.resolve(first)];
  const move = async (database) => {
    at = at.then(() => takeOver(first, database))
             .then(() => {
               now = database;
             })
             .catch(() => {})
             .then(() => now);
    if (await at === database) moved();
  };
  late.then(move).catch(() => {});
  const asked = (name) => (...words) => at.then((shelf) => shelf[name](...words));
  return whole({
    get lasts() {
      return now.lasts;
    },
    get: asked('get'),
    change: asked('change'),
    drop: asked('drop'),
    keys: asked('keys'),
    listedAtOnce: asked('listed')
  });
}

/**
 * The best shelf that the browser has; `home` is the window. Never fails. `moved` is called where
 * it is a database that opened late from now on.
 */
export async function openShelf(home, moved = () => {}) {
  const {opening, inTime} = openTimed((isBlocked) => indexedShelf(home, isBlocked, moved));
  try {
    const shelf = await inTime;
    await (async () => takeOver(localShelf(home.localStorage), shelf))().catch(
        () => {}
    );  // of a start at which it did not open
    return shelf;
  } catch {
    return shelfUntil(shelfWithout(home), opening, moved);
  }
}

/** Why a shelf refused something. */
export const reasonOf = (fault) =>
    ({QuotaExceededError: 'full', NS_ERROR_DOM_QUOTA_REACHED: 'full', TimeoutError: 'late'}
    )[fault?.name] ??
    'refused';

/**
 * Takes a name for this tab alone: resolves to what gives it back, or to null where another tab has
 * it. By the browser's locks, which end with the tab; where it has none, by a channel on which the
 * tab that has it answers.
 */
export async function claim(name, home) {
  const whole = `${SHELF_NAME}:${name}`;
  try {
    return await new Promise((resolve, reject) => {
      home.navigator.locks
          .request(
              whole,
              {ifAvailable: true},
              (lock) => {
                if (!lock) return resolve(null);
                return new Promise((free) => resolve(free));
              }
          )
          .catch(reject);
    });
  } catch {
    return claimByChannel(whole, home);
  }
}

async function claimByChannel(whole, home) {
  if (!home.BroadcastChannel) return () => {};
  const channel = new home.BroadcastChannel(whole);
  let taken = false;
  channel.onmessage = ({data}) => {
    if (data === 'mine') taken = true;
  };
  channel.postMessage('whose');
  await new Promise((go) => setTimeout(go, 200));
  if (taken) {
    channel.close();
    return null;
  }
  channel.onmessage = ({data}) => {
    if (data === 'whose') channel.postMessage('mine');
  };
  return () => channel.close();
}
