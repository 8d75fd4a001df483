// What a picture alone does not give and the moves before it do: how many issues count, who is who, how many results were updated, which loads
// and stores were made, and what the last one did to which instruction.

import { NOBODY, identitiesAfter } from "./identity.js";
import { accessAfter } from "./memory.js";
import { issuesAfter } from "./schedule.js";
import { namesOfMeeting } from "./telling.js";
import { eventOf } from "./timeline.js";

// The accesses are a chain that begins with the last.
export const NO_TRACK = { issues: 0, who: NOBODY, updates: 0, accesses: null };

export function trackAfter(track, move, before, after, texts) {
  const access = accessAfter(track.who, move, before, texts);
  return {
    issues: issuesAfter(track.issues, move, before, after),
    who: identitiesAfter(track.who, move, before, after),
    updates: track.updates + (namesOfMeeting(move, before, after).includes("update") ? 1 : 0),
    event: eventOf(track.who, move, before, after),
    accesses: access ? { access, before: track.accesses } : track.accesses,
  };
}
