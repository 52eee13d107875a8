// What the pages use that TypeScript can't know by itself. An element that is found by its id or by a selector has
// the members of the element that is there, such as `value` of a field; TypeScript knows only that it is an element.

interface Document {
  getElementById(id: string): any;
}

interface ParentNode {
  querySelector(selectors: string): any;
  querySelectorAll(selectors: string): any;
}

interface Element {
  closest(selectors: string): any;
}

// (what an event is of is an element, on these pages)
interface EventTarget {
  closest(selectors: string): any;
}

interface Window {
  LEVELS: any; // the levels of the contract page, which its own script gives it
}

// (what `assets/spoken.js` gives the other scripts of the website, which are no modules)
declare function t(text: string, values?: object): string;
declare function tn(one: string, many: string, count: number, values?: object): string;
declare function figureText(text: string): string;
declare function amountRead(text: string, decimals: number): { minor?: bigint, readings?: string[] } | null;
declare function moneyText(minor: bigint, digits: number): string;
declare function monthText(month: string): string;
