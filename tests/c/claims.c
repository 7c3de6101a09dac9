/*
 * igb_check_claims from C: every answer with its place. What is expected is written by hand from docs/RULES.md, "Claims".
 */
#include "check.h"

#define LEN(array) (sizeof(array) / sizeof *(array))

int main(void)
{
    static const int32_t two[] = {1, 2, 0, 1, -2, 0}, open_list[] = {1, 2};
    static const struct {
        const char *what, *text;
        igb_verdict expected;
    } cases[] = {
        {"a model alone", "2 1 2 0", {IGB_OK, 0}},
        {"one claim", "2 1 -2 1 1 -2 1 2", {IGB_OK, 0}},
        {"subtrees exchanged", "2 1 -2 1 1 -2 2 1", {IGB_REJECTED, 14}},
        {"a model that fails", " 2 -1 -2 0", {IGB_REJECTED, 1}},
        {"another count", "1 1 0", {IGB_REJECTED, 0}},
        {"a literal of another variable", "2 -1 -1 0", {IGB_REJECTED, 5}},
        {"an end with an unset literal", "2 1 2 1 1 1", {IGB_REJECTED, 10}},
        {"a split on a set variable", "2 1 2 1 1 -1 1 1", {IGB_REJECTED, 10}},
        {"a number behind the last claim", "2 1 2 0 1", {IGB_REJECTED, 8}},
        {"a text that ends too early", "2 1 2 1 1", {IGB_REJECTED, 9}},
        {"a malformed token", "2 1 2 0 %", {IGB_BAD_TOKEN, 8}},
    };
    for (size_t i = 0; i < LEN(cases); i++) {
        igb_verdict got = igb_check_claims(two, LEN(two), 2, (const uint8_t *)cases[i].text, strlen(cases[i].text));
        CHECK(got.answer == cases[i].expected.answer && got.place == cases[i].expected.place, cases[i].what);
    }
    static uint8_t blanks[IGB_TEXT_MAX + 1];
    memset(blanks, ' ', sizeof blanks);
    igb_verdict got = igb_check_claims(two, LEN(two), 2, blanks, sizeof blanks);
    CHECK(got.answer == IGB_LONG_TEXT && got.place == IGB_TEXT_MAX, "a text that is too long");
    got = igb_check_claims(two, LEN(two), 2, blanks, sizeof blanks - 1);
    CHECK(got.answer == IGB_REJECTED && got.place == IGB_TEXT_MAX, "the longest text");
    got = igb_check_claims(two, LEN(two), 257, blanks, sizeof blanks);
    CHECK(got.answer == IGB_BAD_LIMITS && got.place == 0, "257 variables, before the text");
    got = igb_check_claims(open_list, 2, 2, blanks, sizeof blanks);
    CHECK(got.answer == IGB_BAD_LIST && got.place == 2, "a list that is not ended, before the text");
    got = igb_check_claims(two, LEN(two), 1, NULL, 0);
    CHECK(got.answer == IGB_ENTRY_OVER_VARS && got.place == 1, "a variable above V, before the text");
    got = igb_check_claims(NULL, 0, 0, NULL, 0);
    CHECK(got.answer == IGB_REJECTED && got.place == 0, "nothing at all");
    return ended("claims");
}
