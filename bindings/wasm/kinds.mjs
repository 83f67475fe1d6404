// The kinds of input. Made by tools/header.

/** The kinds of `rewrite`, in the order of their numbers in C: of bytes, from `creation` to `client-data` of JSON texts, and then
 * others of bytes. */
export const KINDS = [
  "cbor", "auth", "mc-request", "mc-response", "ga-request", "ga-response", "info", "hmac-input", "creation", "request", "created",
  "authenticated", "client-data", "pin-request", "pin-response", "bio-request", "bio-response", "cm-request", "cm-response",
  "lb-request", "lb-response", "lb-entry", "cfg-request", "cfg-min-pin-length", "cfg-vendor", "cose-key", "info-23", "mc-inputs",
  "mc-outputs", "mc-unsigned", "ga-inputs", "ga-outputs", "ga-unsigned", "att-packed", "att-tpm", "att-android-key",
  "att-android-safetynet", "att-fido-u2f", "att-none", "att-apple", "att-compound", "tpm-cert-info", "tpm-pub-area", "ctap-mc-request",
  "ctap-ga-request", "ctap-mc-response", "ctap-ga-response", "attestation-object",
];

/** The kinds of `decode`: all but attestation statements and structures of a TPM. */
export const DECODED = [
  "cbor", "auth", "mc-request", "mc-response", "ga-request", "ga-response", "info", "hmac-input", "creation", "request", "created",
  "authenticated", "client-data", "pin-request", "pin-response", "bio-request", "bio-response", "cm-request", "cm-response",
  "lb-request", "lb-response", "lb-entry", "cfg-request", "cfg-min-pin-length", "cfg-vendor", "cose-key", "info-23", "mc-inputs",
  "mc-outputs", "mc-unsigned", "ga-inputs", "ga-outputs", "ga-unsigned", "ctap-mc-request", "ctap-ga-request", "ctap-mc-response",
  "ctap-ga-response", "attestation-object",
];

/** The kinds of JSON texts. */
export const RECORDS = [
  "creation", "request", "created", "authenticated", "client-data",
];

/** The kinds of `explain`: all. */
export const EXPLAINED = KINDS;

/** The rules of CTAP2's canonical form (CTAP 2.2, section 8), by their numbers in C from 1 on. */
export const RULES = [
  "WellFormed", "ShortestHead", "DefiniteLength", "NoTag", "NoUndefined", "AscendingKeys", "DistinctKeys", "Levels", "NothingAfter",
];
