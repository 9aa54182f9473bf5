// The hall's clock, by the replies' `Date` (the proxy writes it) and a local clock that nobody can set.
//
// Each reply was made in the second that it says, and between sending and getting. So how far the clocks are apart
// lies between two bounds, which many replies narrow. All times are in milliseconds but `now`.

const unbounded = () => ({ low: -Infinity, high: Infinity });
const wall = () => Date.now() - performance.now();

export const clock = {
  ...unbounded(),
  known: false, // without a `Date` the computer's own clock must do
  wall: wall(),

  // The hall's time in seconds since 1970, with fractions.
  now() { return (this.known ? performance.now() + (this.low + this.high) / 2 : Date.now()) / 1000; },

  // Whether a moment is past for sure. Where it isn't sure, the hall shall say so, and not this page.
  isPast(moment) { return this.known && performance.now() + this.low >= 1000 * moment; },

  learn(date, sent, got) {
    const second = Date.parse(date);
    if (Number.isNaN(second)) return;
    // A computer that slept, or whose clock was set, begins anew: its local clock may have stood still.
    if (Math.abs(wall() - this.wall) > 1000) Object.assign(this, unbounded(), { wall: wall() });
    const low = second - got, high = second + 1000 - sent;
    Object.assign(this, { low: Math.max(this.low, low), high: Math.min(this.high, high), known: true });
    if (this.low > this.high) Object.assign(this, { low, high });
  },
};
