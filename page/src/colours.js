// Numbers as pixels.

/** A sample of this depth as a grey. */
export const grey = (depth) => (sample) => {
  const level = Math.min(255, sample >> (depth - 8));
  return [level, level, level];
};

/** Signed numbers about white: red above 0 and blue below, as strong as they are against the greatest. */
export const signed = (most) => (value) => {
  const strength = most === 0 ? 0 : Math.sqrt(Math.abs(value) / most);
  const fade = Math.round(255 * (1 - strength));
  return value > 0 ? [255 - Math.round(60 * strength), fade, fade] : [fade, fade + Math.round(60 * strength), 255 - Math.round(40 * strength)];
};

export const greatest = (values) => values.reduce((most, value) => Math.max(most, Math.abs(value)), 0);

const packed = (colour) => new Uint32Array(Uint8Array.of(...colour, 255).buffer)[0];

/** Draws numbers into a canvas, one pixel each. */
export function painted(canvas, width, height, values, colour) {
  canvas.width = width;
  canvas.height = height;
  const context = canvas.getContext("2d", { willReadFrequently: true });
  const image = context.createImageData(width, height);
  // each number's colour is worked out once, as four bytes in one
  const known = new Map();
  const pixels = new Uint32Array(image.data.buffer);
  for (let k = 0; k < values.length; k++) {
    let pixel = known.get(values[k]);
    if (pixel === undefined) known.set(values[k], (pixel = packed(colour(values[k]))));
    pixels[k] = pixel;
  }
  context.putImageData(image, 0, 0);
  return canvas;
}
