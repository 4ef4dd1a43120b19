// Tables to begin with.

/** @type {Record<string, string>} */
export const EXAMPLES = {
  'yard, dearer': `# The yard with a plan that is too dear: trench 1 can go for trench 4.
1 2 5 1
2 3 3 1
3 4 5 1
1 4 4 0
1 3 6 0
`,
  yard: `# The yard: four junctions, five trenches. Junction, junction, price, mark.
1 2 5 0
2 3 3 1
3 4 5 1
1 4 4 1
1 3 6 0
`,
  'an old drawing': `# The yard in an old drawing: a ring, and junction 4 is out.
1 2 5 1
2 3 3 1
3 4 5 0
1 4 4 0
1 3 6 1
`,
};
