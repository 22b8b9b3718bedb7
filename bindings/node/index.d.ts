/** Which comments are printed. Each kind is, unless it is switched off. */
export interface Comments {
  /** Those of no other kind. */
  normal?: boolean;
  /** Those that begin with two stars. */
  jsdoc?: boolean;
  /** Those that tell a tool something of the code. */
  annotation?: boolean;
  /**
   * What becomes of those that hold a licence: they are left out, stay where they are, stand at the end of the code, or are
   * handed back, and then the code may name the file in which they will be.
   */
  legal?: "none" | "inline" | "eof" | "external" | { linked: string };
}

/** The options of a job (docs/FORMAT.md). */
export interface Options {
  single_quote?: boolean | null;
  minify?: boolean | null;
  ascii_only?: boolean | null;
  indent_char?: "tab" | "space" | null;
  indent_width?: number | null;
  initial_indent?: number | null;
  normal?: boolean | null;
  jsdoc?: boolean | null;
  annotation?: boolean | null;
  legal?: "none" | "inline" | "eof" | "linked" | "external" | null;
  legal_path?: string | null;
  source_map_path?: string | null;
}

/** A row of a job: a node, with the fields of its type. Children are numbers of earlier rows. */
export interface Row {
  type: string;
  /** Where the node begins and ends, in bytes of the source. */
  span?: [start: number, end: number];
  [field: string]: unknown;
}

/** The tables of a job by which names are printed. */
export interface Tables {
  /** The names by which symbols are printed. */
  symbols?: string[];
  /** The symbol that each reference names, or null. */
  references?: (number | null)[];
  /** The new names of private names, for each class. */
  private?: { [name: string]: string }[];
}

/** A job (docs/FORMAT.md): what is printed, in JSON. */
export interface Job extends Tables {
  options?: Options;
  /** The nodes of the tree, children before their parents, and the program last. */
  rows: Row[];
}

/** The tables of new names of a tree, and the numbers of its nodes in them. */
export interface Renaming extends Required<Tables> {
  symbolOf: Map<object, number>;
  referenceOf: Map<object, number>;
}

/** How the job of a tree is made. */
export interface JobSettings {
  /** The text that the tree was parsed from, by which spans are counted. */
  source?: string;
  options?: Options;
  /** Whether rows have spans, where there is a source. By default they do. */
  spans?: boolean;
  /** Whether `-1` stands for a negative number, in place of an operation on 1. */
  negative?: boolean;
  /** The comments of the source in order, as acorn's `onComment` lists them. */
  comments?: object[];
  /** Prints the comment of the source that names its source map, too. */
  keepSourceMappingUrl?: boolean;
  names?: Renaming | null;
}

/** How a tree is printed. */
export interface Settings {
  /** The text that the tree was parsed from; with it faults tell where they are. */
  source?: string;
  minify?: boolean;
  asciiOnly?: boolean;
  singleQuote?: boolean;
  /** Tabs, or so many spaces a level. */
  indent?: "tab" | number;
  /** Which of the comments that the tree has in its member `comments` are printed, which takes `source`: all, none, or by kinds. */
  comments?: boolean | Comments;
  /** Prints the comment of the source that names its source map, too. */
  keepSourceMappingUrl?: boolean;
  /** The tables by which names are printed, as `renaming` makes them of this tree. */
  names?: Renaming | null;
  /** Other options of a job (docs/FORMAT.md); `source_map_path` names the source in the map. */
  options?: Options;
  /** Whether a map is wanted too, which takes `source`. */
  sourceMap?: boolean;
}

/** A source map of version 3. */
export interface SourceMap {
  version: 3;
  /** The name of the printed file, where it is known. */
  file?: string;
  sources: string[];
  sourcesContent: string[];
  names: string[];
  mappings: string;
}

export interface Printed {
  code: string;
  /** Null where none is asked for. */
  map: SourceMap | null;
  /** The texts of the licences, each once, where they are for a file of their own. */
  licences?: string[];
}

/** A job that isn't printed. Its message begins with the line that the program says. */
export class JsgenError extends Error {
  /** 1 the tree breaks a rule, 3 no job, 6 out of memory, 7 the job is too long, 70 nothing that prints is there or runs. */
  status?: number | string;
  /** The rule that is broken, or by what the bytes are no job. */
  rule?: string;
  /** The start of the node that breaks a rule, in bytes of the source. */
  start?: number;
  row?: number;
  field?: number;
  /** Of a tree: the name of the field. */
  fieldName?: string;
  /** Of a tree: the node at which the fault is. */
  node?: object;
  /** The line of that node, counted from 1, by `source` or by the node's member `loc`. */
  line?: number;
  /** Its column, counted from 1, in units of UTF-16. */
  column?: number;
}

/** A part of a program that jsgen doesn't read yet. */
export class NotRead extends Error {
  /** The node of the tree. */
  node?: object;
}

/**
 * The tree of a module: the `Program` of ESTree (acorn, espree, meriyah, or `@babel/parser` with its plugin `estree`), or Babel's own
 * `Program` or `File`, as `@babel/parser`, `@babel/traverse`, `@babel/types` and recast have them.
 */
export type Tree = object;

/** Prints the tree of a module. Throws a JsgenError, a NotRead, or a TypeError for wrong arguments. */
export function print(program: Tree, settings?: Settings): Printed;

/** The code of a job (docs/FORMAT.md): JSON as a string, or as bytes of UTF-8, or the bytes of a flat job. */
export function printJob(job: string | Uint8Array): string;

/** The lines of the source map of a job, which is empty where no `source_map_path` is given. */
export function mapJob(job: string | Uint8Array): string;

/** All that is made of a job. */
export interface Built {
  code: string;
  /** The lines of its source map (docs/FORMAT.md), none where no `source_map_path` is given. */
  map: string;
  /** Where its licences stand in the source, a line each; none where they aren't for a file of their own. */
  licences: string;
}

/** All that is made of a job at once: by the addon it is read once for it. */
export function buildJob(job: string | Uint8Array): Built;

/** Throws the JsgenError of a job that wouldn't be printed. */
export function checkJob(job: string | Uint8Array): void;

/** The job of the tree of a module. Throws a NotRead, or a JsgenError for a tree that is nested too deeply. */
export function jobOf(program: Tree, settings?: JobSettings): Job;

/**
 * Tables of new names for the bindings and the private names of a tree, made of these letters. They hold for the tree as it is then. Throws as
 * `jobOf` does.
 */
export function renaming(program: Tree, letters?: string[]): Renaming;
