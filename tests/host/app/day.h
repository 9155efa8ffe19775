/* The numbers of day.sheet, as setter names writes them. A row has its first cell's. */
#ifndef DAY_NAMES_H
#define DAY_NAMES_H
#define DAY_EVENT_turn 0u
#define DAY_EVENT_bonus 1u
#define DAY_BEHAVIOUR_score 0u
#define DAY_BEHAVIOUR_streak 1u
#define DAY_BEHAVIOUR_secret 2u
#define DAY_PARAM_gain 0u
/* Lends the parameters: gain = 1. */
static const unsigned char DAY_PARAMS[32] = {0, 0, 0, 1, 0, 0, 0, 0, 0, 0, 0, 0, 0, 0, 0, 0, 0, 0, 0, 0, 0, 0, 0, 0, 0, 0, 0, 0, 0, 0, 0, 0};
#endif
