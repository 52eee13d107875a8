// The languages of the pages: code, name in the language itself, and direction. tools/pages makes this file of po/ and
// of CLDR.

export const LANGUAGES = [
  {"code": "en", "name": "English", "dir": "ltr"},
  {"code": "ar", "name": "العربية", "dir": "rtl"},
  {"code": "es", "name": "español", "dir": "ltr"},
  {"code": "fr", "name": "français", "dir": "ltr"},
];
