"""What can't be told apart on a page as it stands, by computed colours: texts, edges of controls, and what is printed
and drawn on boards. Controls that are off, and edges that only adorn, are left out, as in the guidelines for content
that everybody can see."""

from page_tests.place import none

TEXT, OTHER = 4.5, 3  # contrast at the least, by those guidelines
FAINT = """const [ofText, ofOther] = arguments;
const parse = (colour) => {
  const [r, g, b, a = 1] = colour.match(/[\\d.]+/g).map(Number), scale = colour.startsWith('color(') ? 255 : 1;
  return [r * scale, g * scale, b * scale, a];
};
const over = ([r, g, b, a], under) => [...[r, g, b].map((part, i) => part * a + under[i] * (1 - a)), 1];
const linear = (part) => (part / 255 <= .03928 ? part / 255 / 12.92 : ((part / 255 + .055) / 1.055) ** 2.4);
const brightness = ([r, g, b]) => .2126 * linear(r) + .7152 * linear(g) + .0722 * linear(b) + .05;
const contrast = (one, other) => {
  const [dark, bright] = [brightness(one), brightness(other)].sort((a, b) => a - b);
  return bright / dark;
};
const look = (e, of) => getComputedStyle(e, of);
const ground = (e) => {
  const colour = e ? parse(look(e).backgroundColor) : [255, 255, 255, 1];
  return colour[3] === 1 ? colour : over(colour, ground(e.parentElement));
};
const opacity = (e) => (e ? look(e).opacity * opacity(e.parentElement) : 1);
const seen = (e) => e.checkVisibility() && !e.closest(':disabled, .unseen, .step:not([href])');
const found = [];
const compare = (e, what, colour, under, least) => {
  const [r, g, b, a] = parse(colour), ratio = contrast(over([r, g, b, a * opacity(e)], under), under);
  const name = `${e.tagName.toLowerCase()}.${e.getAttribute('class') ?? ''} ${what}`;
  if (ratio < least) found.push(`${name} ${ratio.toFixed(2)} ${(e.innerText ?? '').slice(0, 30)}`);
};
const hasText = (e) => [...e.childNodes].some((it) => it.nodeType === 3 && it.textContent.trim());
for (const e of document.body.querySelectorAll('*:not(svg *, svg, script, option)')) {
  const least = e.matches('.spent') ? ofOther : ofText; // a number that is used up is dimmed
  if (seen(e) && hasText(e)) compare(e, 'text', look(e).color, ground(e), least);
}
for (const e of document.querySelectorAll('input, select, textarea, button, .chip, .note, [aria-current]')) {
  const { borderLeftStyle, borderLeftWidth, borderLeftColor } = look(e);
  const isEdged = borderLeftStyle !== 'none' && parseFloat(borderLeftWidth) && parse(borderLeftColor)[3];
  if (seen(e) && isEdged && e.type !== 'checkbox' && !e.matches('.card:not([aria-pressed=true])')) {
    compare(e, 'edge', borderLeftColor, ground(e.parentElement), ofOther);
  }
  if (seen(e) && e.placeholder && !e.value) compare(e, 'hint', look(e, '::placeholder').color, ground(e), ofText);
}
const PARTS = { '.line': 'stroke', '.dots': 'stroke', '.grid': 'stroke', '.frame': 'stroke', '.wall': 'fill',
  '.clue:not(.done)': 'fill', '.number': 'fill', '.differs rect': 'stroke' };
for (const board of document.querySelectorAll('svg.sheet')) {
  const frame = board.querySelector('.frame'), fill = frame && look(frame).fill;
  const paper = board.matches('.nurikabe') && fill !== 'none' ? parse(fill) : ground(board.parentElement);
  for (const [css, property] of seen(board) ? Object.entries(PARTS) : []) {
    const part = board.querySelector(css), under = css === '.frame' ? ground(board.parentElement) : paper;
    if (part && look(part)[property] !== 'none') compare(part, css, look(part)[property], under, ofOther);
  }
}
return [...new Set(found)]"""


def told_apart(browser, name):
    """In the light and in the dark."""
    for look in ("dark", "light"):
        browser.media(prefers_color_scheme=look)
        none(f"{name}, {look}: texts {TEXT} : 1, and what else is to be seen {OTHER} : 1",
             browser.js(FAINT, TEXT, OTHER))
