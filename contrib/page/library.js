'use strict';

// The calls of include/bootimg.h over a file, by the library in WebAssembly.

const DONE = 0;
const REFUSED = 1;
const OUT_OF_MEMORY = 2;
const NO_ROOM = 3;
const LIMIT = 0x7fffffff;
const DEPTH = 64;
const ANSWER_SIZE = 32;
const FIRST_ROOM = 0x10000;

// A place in the memory that no call reads or writes, since its length is 0. It must not be 0.
const NOWHERE = 16n;

/** The memory of the module does not suffice for what is asked of it. */
class MemoryError extends Error {}

/** A call ended without an answer: the module is at fault. */
class CallError extends Error {}

/**
 * The library over one file. The memory of an instance only grows, so each file has an instance of its own. A call that ends by an
 * exception may leave memory half written, so the next call then has a new instance too.
 */
class Library {
  /**
   * Copies the file to the memory of a new instance.
   * @param {WebAssembly.Module} module
   * @param {Uint8Array} file
   * @param {number} room the size of the buffer that an output is first written to
   * @throws {MemoryError} if the memory does not suffice for the file
   */
  constructor(module, file, room = FIRST_ROOM) {
    this.module = module;
    this.file = file;
    this.room = room;
    this.begin();
  }

  /** Makes an instance and copies the file to its memory. */
  begin() {
    this.exports = new WebAssembly.Instance(this.module, {}).exports;
    this.answer = this.allocate(ANSWER_SIZE);
    this.place = this.put(this.file);
  }

  /** Whether the library has the call of this name. */
  has(name) {
    return `bootimg_${name}` in this.exports;
  }

  /** The place of this many bytes of new memory. */
  allocate(size) {
    const place = this.exports.page_alloc(BigInt(size));
    if (place === 0n) {
      throw new MemoryError(`The memory of this page has no room for ${size} bytes.`);
    }
    return place;
  }

  /** The place of a copy of these bytes in new memory. */
  put(bytes) {
    const place = this.allocate(bytes.length);
    this.memory(place, bytes.length).set(bytes);
    return place;
  }

  /** The memory from a place on. It is no longer valid after the next allocation or call. */
  memory(place, size) {
    return new Uint8Array(this.exports.memory.buffer, Number(place), size);
  }

  /** The struct `bootimg_result` that the last call left. */
  readAnswer(status) {
    const view = new DataView(this.exports.memory.buffer, Number(this.answer), ANSWER_SIZE);
    return {
      status,
      size: Number(view.getBigUint64(0, true)),
      value: Number(view.getBigUint64(8, true)),
      cause: view.getUint32(16, true),
      offset: view.getUint32(20, true),
      file: view.getUint32(24, true),
      reason: view.getUint32(28, true),
    };
  }

  /** Calls an export with these arguments and the place of the answer. */
  call(name, ...values) {
    try {
      return this.readAnswer(this.exports[`bootimg_${name}`](...values, this.answer));
    } catch (error) {
      this.begin();
      throw new CallError(`${name} ended without an answer: ${error.message}`);
    }
  }

  /** The answer of a call that takes the file and these numbers and has no output. */
  ask(name, ...numbers) {
    return this.call(name, this.place, BigInt(this.file.length), ...numbers, LIMIT, DEPTH);
  }

  /** The answer of a call that writes to a buffer of this size, with the bytes that were written as `output`. */
  writeTo(size, name, ...values) {
    const buffer = this.allocate(size);
    const answer = this.call(name, ...values, buffer, BigInt(size));
    const written = answer.status === DONE ? answer.size : 0;
    const output = this.memory(buffer, written).slice();
    this.exports.page_free(buffer);
    return { ...answer, output };
  }

  /** The same, with a buffer that is large enough. */
  write(name, ...values) {
    const answer = this.writeTo(this.room, name, ...values);
    return answer.status === NO_ROOM ? this.writeTo(answer.size, name, ...values) : answer;
  }

  /** The answer of a call that takes the file and these numbers, with its output. */
  report(name, ...numbers) {
    return this.write(name, this.place, BigInt(this.file.length), ...numbers, LIMIT, DEPTH);
  }

  /** What differs between what the file and another one mean. */
  compare(other) {
    const place = this.put(other);
    const answer = this.write('compare', this.place, BigInt(this.file.length), place, BigInt(other.length), LIMIT, DEPTH);
    this.exports.page_free(place);
    return answer;
  }

  /** Where a part of a legacy image is: `value` and `size` of the answer. */
  findPart(index) {
    return this.ask('extract_part', index);
  }

  /** Where the payload of the image of this name is, given as bytes. */
  findImage(name) {
    const place = this.put(name);
    const answer = this.ask('extract_image', place, BigInt(name.length));
    this.exports.page_free(place);
    return answer;
  }

  /** The line that the program prints for an answer that refuses the file, without the names of the program and the file. */
  refusal(answer) {
    return `${this.causeName(answer.cause)} at ${answer.offset}`;
  }

  causeName(cause) {
    return textOf(this.write('cause_name', cause).output);
  }

  /** What a cause means, or nothing if the library does not tell. */
  explanation(cause) {
    return this.has('explain') ? textOf(this.write('explain', cause).output) : '';
  }

  version() {
    return textOf(this.write('version').output);
  }
}

/** The text of an output. */
function textOf(output) {
  return new TextDecoder().decode(output);
}

/** The bytes of a name as it is printed: `%` and two digits are a byte, and `-` is the empty name. */
function bytesOfName(printed) {
  const bytes = printed.replace(/^-$/, '').replace(/%([0-9A-F]{2})/g, (_, digits) => String.fromCharCode(parseInt(digits, 16)));
  return Uint8Array.from(bytes, (character) => character.charCodeAt(0));
}
