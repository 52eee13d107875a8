// What the page says of a refusal, by its number. tools/pages makes this file of tools/cpi_tools/office/refusals.py.

export const REFUSED = {
  10: "The record’s form is wrong, or a price or number is outside its limits. Check the fields and send it again.",
  11: "This key isn’t registered. Check the key; if it is right, ask the desk.",
  12: "Only the desk can do that. Ask the desk.",
  20: "You have no such slot. Check the work list.",
  21: "The month has no window yet. Ask the desk.",
  22: "The slot isn’t yours in that month, or no longer is. Check the work list of the month.",
  23: "The window isn’t open yet. Send it once the window is open.",
  24: "The window has closed. Tell the desk; the price won’t count this month unless the desk opens the window again.",
  25: "The entry is a replacement, but the slot has no price to replace. Send it as a price.",
  26: "The price is far from the last one. Look again; correct it, or send it with the confirm button.",
  27: "Your receipts are used up. The desk registers a new number with slots of its own.",
  90: "Memory ran out, or the disk failed. Nothing was stored; send it again.",
};
