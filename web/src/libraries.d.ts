// The libraries that are bundled have no types here.
declare module "codemirror";
declare module "d3-selection";
declare module "d3-scale";
declare module "d3-scale-chromatic";
declare module "d3-shape";
// web/build says what these are.
declare const BUILD: string;
declare const FILES: string[];
