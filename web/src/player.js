// Plays moves by themselves, at a rate: at each frame of the browser those that are due, drawn once.

import { byId } from "./element.js";

// Where a frame comes late, no more moves than these are made up for at once.
const MOST = 12;
// From this many moves a second on, what moves is not shown on its way.
const FAST = 8;

export class Player {
  // `make` makes one move and says whether there may be more; `show` draws where the moves led.
  constructor(make, show) {
    this.make = this.making = make;
    this.show = show;
    this.frame = null;
  }

  get isPlaying() {
    return this.frame !== null;
  }

  get speed() {
    return this.asFastAsCan ? Infinity : Number(byId("speed").value);
  }

  get isFast() {
    return this.isPlaying && this.speed >= FAST;
  }

  toggle() {
    if (!this.isPlaying) this.begin();
    else {
      this.stop();
      this.show();
    }
  }

  // Begins to play, at the speed that is set, or as fast as it can; or to make other moves than the page's.
  begin(asFastAsCan = false, making = this.make) {
    Object.assign(this, { asFastAsCan, making });
    byId("play-word").textContent = "Stop";
    // Who listens to the page hears single moves alone.
    byId("telling").setAttribute("aria-live", "off");
    this.due = 1;
    this.last = performance.now();
    this.wait();
  }

  wait() {
    this.frame = requestAnimationFrame((now) => this.turn(now));
  }

  turn(now) {
    const passed = Math.max(1, now - this.last);
    this.due = Math.min(MOST, this.due + (passed * this.speed) / 1000);
    this.last = now;
    this.wait();
    if (this.due >= 1) this.play();
  }

  play() {
    let goesOn = true;
    for (; goesOn && this.due >= 1; this.due -= 1) goesOn = this.making();
    if (!goesOn) this.stop();
    this.show();
  }

  stop() {
    cancelAnimationFrame(this.frame);
    this.frame = null;
    byId("play-word").textContent = "Play";
    byId("telling").setAttribute("aria-live", "polite");
  }
}
