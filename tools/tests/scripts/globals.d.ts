// Names that no module of the pages declares.

/** Leaflet, whose script stands before that of the page. */
declare const L: any;
interface Window { [name: string]: any }
declare const DecompressionStream: any;
