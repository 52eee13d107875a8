// Keeps the files of the collectors' page, so that it opens without a line. It never touches the interfaces of the office
// and of the desk's machine.
// VERSION is the hash of FILES, of the files of notes and questions, and of the catalogues of all languages: tools/pages
// writes it. What an office sets itself (SET) is kept too, and read anew behind each start, so that the next one has it; and
// so are the catalogues of languages that this phone has spoken, and the files of notes and questions if the office takes
// them: the page names these.
const VERSION = "821a5d3d2f500dd9";
const FILES = [
  "./", "answers.js", "app.js", "collect.css", "deadline.js", "drafts.js", "entry.js", "export.js", "form.js", "head.js",
  "icon.svg", "kept-lists.js", "key.js", "languages.js", "line.js", "list.js", "lists.js", "look.js",
  "manifest.webmanifest", "opening.js", "optional.js", "quotes.js", "refused.js", "restored.js", "search.js", "send.js", "session.js",
  "shown-month.js", "state.js", "storage.js", "store.js", "tabs.js", "unsent.js", "wording.js",
  "../shared/api.js", "../shared/base.css", "../shared/csv.js", "../shared/dom.js", "../shared/money.js",
  "../shared/language.js", "../shared/languages.js", "../shared/months.js", "../shared/texts.js", "../shared/windows.js",
];
const SET = new URL("../config.js", self.location.href);
const NAME = `cpi-collect-${VERSION}`;

const fresh = (file) => new Request(file, { cache: "reload" });

self.addEventListener("install", (event) => {
  event.waitUntil((async () => {
    const cache = await caches.open(NAME);
    await cache.addAll([...FILES.map(fresh), fresh(SET)]);
    // (a language that is gone in this version is no reason to stay with the one before)
    await Promise.all((await named()).map((url) => cache.add(fresh(url)).catch(() => {})));
  })());
});

const NAMED = new RegExp(`^${new URL("./", self.location.href).href}(languages/[A-Za-z-]+\\.json|(notes?|questions?)[a-z-]*\\.(js|css))$`);

/** The addresses of catalogues and of files of notes and questions that the versions before have kept. */
async function named() {
  const found = new Set();
  for (const name of await caches.keys()) {
    if (!name.startsWith("cpi-collect-")) continue;
    for (const { url } of await (await caches.open(name)).keys()) if (NAMED.test(url)) found.add(url);
  }
  return [...found];
}

/** Keeps such a file, unless it is kept already: the one that the browser has loaded, if it is the front's still. */
async function keep(url) {
  const cache = await caches.open(NAME);
  if (NAMED.test(url) && !(await cache.match(url))) {
    await cache.add(new Request(url, { cache: "no-cache" })).catch(() => {}); // (the next start tries again)
  }
}

// A page says "go" once it has loaded all of its files: none has files of two versions. It names a file to keep.
self.addEventListener("message", (event) => {
  const { data } = /** @type {MessageEvent} */ (event);
  if (data === "go") self.skipWaiting();
  else if (data?.keep) event.waitUntil(keep(data.keep));
});

self.addEventListener("activate", (event) => {
  event.waitUntil((async () => {
    const old = (await caches.keys()).filter((name) => name.startsWith("cpi-collect-") && name !== NAME);
    await Promise.all(old.map((name) => caches.delete(name)));
    await self.clients.claim();
  })());
});

self.addEventListener("fetch", (event) => {
  const { request } = event;
  const url = new URL(request.url);
  if (request.method !== "GET" || url.origin !== self.location.origin || /^\/(api|notes)\//.test(url.pathname)) return;
  if (url.pathname === SET.pathname) {
    event.waitUntil(caches.open(NAME).then((cache) => cache.add(fresh(SET))).catch(() => {}));
  }
  event.respondWith((async () => {
    const cache = await caches.open(NAME);
    return (await cache.match(request, { ignoreSearch: true })) ?? fetch(request);
  })());
});
