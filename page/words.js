// @ts-check
// The words in which the page and mcf_plan differ: the page has choices where the tool has options.
/** @type {Speech} */
const OWN_WORDS = {
  found: 'found in this page by proved code',
  none: 'as proved code found in this page',
  encoding: 'or choose Windows-1252 under Reading',
  choose: 'choose the decimal mark under Reading',
  orChoose: 'or choose the decimal mark under Reading',
  chosen: 'as chosen under Reading',
  own: (head) => `where a head has another name, write ${head}=NAME under Reading`,
  named: (head, own) => `${head}=${own} under Reading`,
  names: (head, own) => `which ${head}=${own} under Reading names`,
  merged: (title) => `name ${title} under Reading, to fill it down`,
  fills: (column) => `fill down ${column} under Reading`,
  unused: 'a choice lets it stay',
  short: 'a choice lets it be short',
  penalty: (number) => `penalty ${number} under Choices`,
  ofAll: 'or write one under Choices for all that have none',
  each: 'If you choose that each thing gets a person, each would get one',
  both: 'if you choose person and each thing under Choices,',
  groups: 'a table of groups says',
  leaves: 'a choice leaves',
  limits: 'supplies and amounts go up to 10^18, costs up to 10^15',
};

let speech = OWN_WORDS;

/** @type {() => Speech} */
export const words = () => speech;

// This function sets the words. The tests set those of mcf_plan, to compare the page with it.
/** @type {(other: Speech | null) => void} */
export function speakAs(other) { speech = other || OWN_WORDS; }

// The meaning of each refusal code for a line of a DIMACS text.
/** @type {Record<string, string>} */
export const CODES = {
  kind: 'a line begins with p, n, a or c',
  fields: 'the number of fields isn’t right',
  problem: 'the problem is min or asn',
  number: 'a field isn’t a whole number',
  'second-p': 'there is a problem line already',
  'before-p': 'the problem line has to come first',
  size: 'too many nodes or arcs',
  node: 'there is no such node',
  'late-n': 'a node line comes after an arc line',
  twice: 'this node has a line already',
  supply: 'the supply is beyond 10^18',
  bound: 'a bound is beyond 10^18',
  order: 'the least amount is above the most',
  cost: 'the cost is beyond 10^15',
  extra: 'more arcs than the problem line says',
  side: 'an arc of an assignment leads from a person to a thing',
  total: 'costs times amounts add to more than 10^36',
  'no-p': 'there is no problem line',
  missing: 'fewer arcs than the problem line says',
};
