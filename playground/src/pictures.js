// ---- Files, and the picture of a trace as a file.

function save(content, file) {
  const link = document.createElement('a');
  link.href = URL.createObjectURL(content instanceof Blob ? content : new Blob([content]));
  link.download = file;
  link.click();
}

// The picture of the trace that is shown, as scripts/trace_svg.sh draws it, or as points.
function savePicture(kind) {
  const drawn = traceSvg(whole);
  if (kind === 'svg') save(new Blob([drawn], { type: 'image/svg+xml' }), `${name}.svg`);
  else canvasOf(get('picture').querySelector('svg'), 2).toBlob(it => save(it, `${name}.png`));
}

const grounds = { mark: '#ffe08a', rest: '#d9f2d9', fault: '#ffd6d6' };

// The picture on a canvas, as many points wide as it is, times `scale`. It has rectangles, lines and texts alone.
function canvasOf(svg, scale) {
  const canvas = document.createElement('canvas'), it = canvas.getContext('2d');
  const { width, height } = svg.viewBox.baseVal;
  canvas.width = width * scale;
  canvas.height = height * scale;
  it.scale(scale, scale);
  for (const part of svg.children) {
    const at = name => Number(part.getAttribute(name)), kind = part.getAttribute('class') ?? '';
    if (part.tagName === 'rect') {
      it.fillStyle = grounds[kind] ?? '#ffffff';
      it.fillRect(at('x'), at('y'), at('width'), at('height'));
    } else if (part.tagName === 'line') {
      it.fillStyle = '#b0b0b0';
      it.fillRect(at('x1'), at('y1'), at('x2') - at('x1'), 1);
    } else if (part.tagName === 'text') {
      it.font = `${kind ? 'bold ' : ''}13px monospace`;
      it.fillStyle = kind === 'bad' ? '#a00000' : '#202020';
      it.fillText(part.textContent, at('x'), at('y'));
    }
  }
  return canvas;
}
