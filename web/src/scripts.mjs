// The addresses of the page's other scripts. Its policy lets no other one be run.

const NAMES = ["worker.js", "offline.js"];
const POLICY = "kuifje-worker";

/** @param {string} address relative to the page */
function checkedAddress(address) {
    if (!NAMES.includes(address.split("?")[0])) {
        throw new Error(`the page has no script ${address}`);
    }
    return new URL(address, document.baseURI).href;
}

/** @typedef {{ createPolicy: (name: string, rules: { createScriptURL: (address: string) => string }) => { createScriptURL: (address: string) => string } }} Factory */

const factory = /** @type {{ trustedTypes?: Factory }} */ (/** @type {unknown} */ (window)).trustedTypes;
const policy = factory === undefined ? { createScriptURL: checkedAddress } : factory.createPolicy(POLICY, { createScriptURL: checkedAddress });

/**
 * The address of a script, for browsers that take none from a plain text.
 * @param {string} address
 */
export const scriptAddress = (address) => policy.createScriptURL(address);
