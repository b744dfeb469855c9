// Keeps the page's own files in the browser, so that the page opens without a network. With one, everything comes from the server, as if this weren't
// here. web/build says which files there are and which build they are of: a newer build has a store of its own, which is used once no window shows the
// older one. Nothing that is typed comes here.
/* global BUILD, FILES */

const STORE = `kuifje-${BUILD}`;
const scope = /** @type {any} */ (self);
/** The module that this browser runs; the other one isn't kept. */
const module = `kuifje${scope.location.search.slice(1)}.wasm`;

scope.addEventListener("install", (/** @type {any} */ event) => {
    event.waitUntil(caches.open(STORE).then((store) => store.addAll(["./", ...FILES, module])));
});
scope.addEventListener("activate", (/** @type {any} */ event) => {
    event.waitUntil(caches.keys().then((names) => Promise.all(names.filter((name) => name.startsWith("kuifje-") && name !== STORE).map((name) => caches.delete(name)))));
});
scope.addEventListener("fetch", (/** @type {any} */ event) => {
    const { request } = event;
    if (request.method === "GET") {
        event.respondWith(fetch(request).catch(async (error) => {
            const kept = await (await caches.open(STORE)).match(request, { ignoreSearch: request.mode === "navigate" });
            if (kept === undefined) {
                throw error;
            }
            return kept;
        }));
    }
});
