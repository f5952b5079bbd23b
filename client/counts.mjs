// What a host counts since it was opened, for people and for `GET /metrics`.

/** The counts of a host. */
export class Counts {
  calls = 0;
  answered = 0;
  ticks = 0;
  fetches = 0;
  fetchesFailed = 0;
  restarts = 0;
  rotations = 0;
  lines = 0;
  /** How many calls failed, by the name of the error; whatever a script throws counts as `Thrown`. */
  failures = {};

  failed(name) {
    this.failures[name] = (this.failures[name] ?? 0) + 1;
  }
}
