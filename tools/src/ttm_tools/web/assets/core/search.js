// Names as they are searched.

export const MOST_FOUND = 12;
/** A text without capitals and accents, as names are searched. */
export function plain(text) {
  return text.normalize("NFD").replace(/\p{Diacritic}/gu, "").toLowerCase();
}
