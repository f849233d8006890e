// A layer of Leaflet that is a canvas.

const PAD = 0.3; // of the map's size, by which the canvas is larger on each side, so that it can be dragged

export const Drawing = L.Layer.extend({
  initialize(name, paint) {
    this.paint = paint;
    this.canvas = L.DomUtil.create("canvas", `drawing ${name}`);
  },

  onAdd(map) {
    map.getPane("overlayPane").appendChild(this.canvas);
    map.on("moveend zoomend resize viewreset", this.draw, this);
    this.draw();
  },

  onRemove(map) {
    this.canvas.remove();
    map.off("moveend zoomend resize viewreset", this.draw, this);
  },

  draw() {
    const map = this._map;
    if (!map) {
      return;
    }
    const size = map.getSize(), pad = size.multiplyBy(PAD).round(), whole = size.add(pad.multiplyBy(2));
    const fine = Math.max(window.devicePixelRatio || 1, map.options.finest);
    this.canvas.width = whole.x * fine;
    this.canvas.height = whole.y * fine;
    this.canvas.style.width = `${whole.x}px`;
    this.canvas.style.height = `${whole.y}px`;
    const corner = map.containerPointToLayerPoint(L.point(0, 0)).subtract(pad);
    L.DomUtil.setPosition(this.canvas, corner);
    const pen = this.canvas.getContext("2d");
    pen.scale(fine, fine);
    const origin = map.getPixelOrigin().add(corner);
    this.paint(pen, { scale: 2 ** map.getZoom(), x: origin.x, y: origin.y, width: whole.x, height: whole.y });
  },
});
