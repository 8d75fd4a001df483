// The course is the script that was loaded. Moves of one's own may leave it as a branch, and come back to it.

// How many of the steps are the course's, from its beginning.
export function common(steps, course) {
  const differs = steps.findIndex(({ move }, at) => move !== course[at]?.move);
  return differs < 0 ? steps.length : differs;
}

export function isOn(steps, course) {
  return course.length > 0 && common(steps, course) === steps.length;
}

// What is left of the course after the steps, the last move first; nothing where they left it.
export function restOf(steps, course) {
  return isOn(steps, course) ? course.slice(steps.length).reverse() : [];
}
