// The numbers of day.sheet, as setter names writes them. A row has its first cell's.
export const EVENT_turn = 0;
export const EVENT_bonus = 1;
export const BEHAVIOUR_score = 0;
export const BEHAVIOUR_streak = 1;
export const BEHAVIOUR_secret = 2;
export const PARAM_gain = 0;
// Lends the parameters: gain = 1.
export const PARAMS = Uint8Array.of(0, 0, 0, 1, 0, 0, 0, 0, 0, 0, 0, 0, 0, 0, 0, 0, 0, 0, 0, 0, 0, 0, 0, 0, 0, 0, 0, 0, 0, 0, 0, 0);
