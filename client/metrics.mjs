// The counts of a host in the text form that Prometheus reads.

const COUNTERS = [
  ['calls', 'calls', 'Calls that were made.'],
  ['answered', 'replies', 'Calls that were answered by a value.'],
  ['ticks', 'ticks', 'Ticks that the program was told.'],
  ['fetches', 'fetches', 'Fetches that scripts asked for.'],
  ['fetchesFailed', 'fetch_failures', 'Fetches that failed.'],
  ['restarts', 'restarts', 'Times that the program was started again behind an end of its own.'],
  ['rotations', 'rotations', 'Times that a run was followed by the next as it was to be.'],
  ['lines', 'lines', 'Lines that the program was sent.'],
];
const GAUGES = [
  ['underWay', 'calls_under_way', 'Calls that the program has and has not answered.'],
  ['waiting', 'calls_waiting', 'Calls that wait to be sent.'],
  ['memory', 'program_memory_bytes', 'Memory that the program holds.'],
];

/** The text of `GET /metrics`. */
export function metricsText(metrics) {
  const parts = [
    ...COUNTERS.map(([field, name, help]) => series(`durable_${name}_total`, 'counter', help, [['', metrics[field]]])),
    ...GAUGES.map(([field, name, help]) => series(`durable_${name}`, 'gauge', help, [['', metrics[field]]])),
    series(
      'durable_failures_total',
      'counter',
      'Calls that failed, by the name of the error.',
      Object.entries(metrics.failures).map(([kind, count]) => [`{kind="${kind}"}`, count]),
    ),
  ];
  return parts.join('');
}

function series(name, kind, help, values) {
  return `# HELP ${name} ${help}\n# TYPE ${name} ${kind}\n${values.map(([labels, value]) => `${name}${labels} ${value}\n`).join('')}`;
}
