/** A data item in bytes (RFC 8949, section 3). */
export interface Item {
  /** Its major type, 0 to 7; 8 for a float. */
  kind: number;
  /** The number in its head: n of the integer n or -1 - n, a length, a tag's number, a simple value, or a float's bits. */
  number: bigint;
  /** The offset of its first byte. */
  from: number;
  /** The offset after its head. */
  content: number;
  /** The offset after its last byte. */
  end: number;
}

/** The parts of authenticator data by their offsets; 0 for one that is absent (WebAuthn Level 3, sections 6.1 and 6.5.1). */
export interface AuthParts {
  /** UP 1, UV 4, BE 8, BS 16, AT 64, ED 128. */
  flags: number;
  counter: number;
  aaguid: number;
  credentialId: number;
  credentialIdLen: number;
  publicKey: number;
  extensions: number;
  /** The offset after the last part. */
  end: number;
}

/** What client data are expected to say (WebAuthn Level 3, section 5.8.1.2). */
export interface ClientData {
  /** `webauthn.create` or `webauthn.get`. */
  type: string;
  challenge: Uint8Array;
  origin: string;
  /** The origin of the page around a frame of another origin. */
  topOrigin?: string | null;
  /** Whether the top origin has to be there, which clients of WebAuthn Level 2 don't write; true if it isn't given. */
  requiresTopOrigin?: boolean;
}

/**
 * The calls of a module; none changes the bytes. Null means that nothing is there. Each call throws a TypeError if an argument has
 * another type, and a RangeError if an offset is no integer from 0 to 2 ** 53 - 1; one after the last byte is where nothing is.
 */
export interface Puffgrit {
  /** The length in bytes of the data item at the beginning; 0 if no well-formed item of at most 256 levels is there. */
  itemLen(bytes: Uint8Array): number;
  /** Whether the bytes are exactly one data item in CTAP2's canonical form (CTAP 2.1, section 8). */
  isCanonical(bytes: Uint8Array): boolean;
  /** The data item at the offset. */
  itemAt(bytes: Uint8Array, offset: number): Item | null;
  /** The data items one after the other from the offset on, up to so many; fewer at the end, at a break, or where none is well-formed. */
  itemsAt(bytes: Uint8Array, offset: number, most: number): Item[];
  /**
   * The value of the first member with this key in the map at the offset. An integer key has at most 64 bits, and is a bigint if it
   * is beyond 2 ** 53 - 1; else a RangeError is thrown.
   */
  member(bytes: Uint8Array, map: number, key: number | bigint | string): Item | null;
  /** Whether the bytes begin as the client data that a client writes. JSON isn't parsed, and other members may follow. */
  isClientData(bytes: Uint8Array, expected: ClientData): boolean;
  /** The parts of the authenticator data at the beginning. */
  authParts(bytes: Uint8Array): AuthParts | null;
}

export const INDEFINITE: bigint;
export const UNSIGNED: 0;
export const NEGATIVE: 1;
export const BYTES: 2;
export const TEXT: 3;
export const ARRAY: 4;
export const MAP: 5;
export const TAG: 6;
export const SIMPLE: 7;
export const FLOAT: 8;

export function load(source: BufferSource | WebAssembly.Module): Promise<Puffgrit>;
