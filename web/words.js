// The words beside the packet line of a packet.

/** Returns the plain words of a packet, which the module writes. Returns an empty text if they are the packet line. */
const peopleWords = (dcc, bytes) => {
  const words = dcc.plain(bytes);
  return words === dcc.words(bytes) ? '' : words;
};

/** Returns a sentence with the numbers of a turnout in both counts, or an empty text for a packet without a turnout.
 * The packet has the fields of dcc_packet in include/dcc.h. */
const turnoutSentence = ({ kind, address, output }) => {
  if (kind !== ACCESSORY || address === 511) return '';
  const number = 4 * address + (output >> 1) + 1;
  return address
    ? `This is turnout ${number - 4} if turnouts are counted from board 1 (NMRA), and ${number} if from board 0.`
    : `This is turnout ${number} if turnouts are counted from board 0. It has no number if from board 1 (NMRA).`;
};
