// A chart of 1,000 tempos and 5,000 notes, with as many other changes as such a chart has.
'use strict';

function largeChart() {
    const list = (count, apart, value) => Array.from({ length: count }, (_, place) => `${(place * apart).toFixed(3)}=${value(place)}`).join(',\n');
    const lines = ['1000', '0100', '0010', '0001'];
    const measures = Array.from({ length: 313 }, (_, measure) => Array.from({ length: 16 }, (_, line) => lines[(measure + line * 7) % 4]).join('\n'));
    return `#VERSION:0.83;
#TITLE:Large;
#BPMS:${list(1000, 1.25, (place) => 120 + (place % 60))};
#STOPS:${list(200, 6, () => 0.1)};
#DELAYS:${list(100, 12.5, () => 0.05)};
#WARPS:${list(100, 12, () => 0.5)};
#SCROLLS:${list(200, 6, (place) => 1 + (place % 3) / 2)};
#SPEEDS:${list(100, 12, (place) => `${1 + (place % 2)}=0.5=0`)};
#FAKES:${list(50, 25, () => 1)};
#NOTEDATA:;
#STEPSTYPE:dance-single;
#NOTES:
${measures.join('\n,\n')}
;
`;
}

module.exports = { largeChart };
