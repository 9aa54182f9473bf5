// In which rounds puzzles stand, as far as the hall tells the caller. It tells a round's texts and not whose they are,
// so puzzles are found by their texts, by one request a round: to a director of each, to others from the start on. To
// who is an author alone it tells no round's puzzles; to an author who is an entrant too, that an own one is in it.

// {byText: from texts to ids of rounds with them; own: ids of rounds with one of the caller's, who may not read them;
// later: ids of those that haven't begun; untold: ids of all, where the caller may read none}; null if it was ended.
export async function standing(app, signal) {
  const found = { byText: new Map(), own: [], later: [], untold: [] };
  await app.refresh();
  for (const { id } of app.rounds) {
    const reply = await app.sheet(id, signal);
    if (!reply) return null;
    ({ 2: found.untold, 5: found.own, 7: found.later })[reply.denied]?.push(id);
    if (reply.denied === 2) return { ...found, untold: app.rounds.map((round) => round.id) };
    for (const { text } of reply.value?.puzzles ?? []) {
      found.byText.set(text, [...found.byText.get(text) ?? [], id]);
    }
  }
  return found;
}

// What isn't told of a puzzle beside it, in short sentences; "" where all is told.
export function untoldWords({ own, later, untold }, rounds) {
  const named = (ids) => ids.map((id) => `${rounds.find((round) => round.id === id)?.title} (${id})`).join(", ");
  return [untold.length && `Released: ${named(untold)}. Which puzzles stand there, the hall doesn't tell who is an `
    + "author alone; directors see it here.",
  own.length && `One of your own puzzles stands in ${named(own)}; which one, the hall doesn't tell.`,
  later.length && `What stands in ${named(later)} is told from its start on.`].filter(Boolean).join(" ");
}
