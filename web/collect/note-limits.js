// What a note of the field may have at most. tools/cpi_tools/desk/field/field_limits.py has the same names.
export const MOST_LETTERS = 500; // of the text
export const MOST_BRAND_LETTERS = 80;
export const MOST_QUANTITY_LETTERS = 40;
export const MOST_PHOTO_BYTES = 300_000;
export const MOST_PHOTO_SIDE = 1_280; // pixels
