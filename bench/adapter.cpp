// A commit's calls as an object. LEND is the name by which the bench asks for them; CALLS is the commit's calls.hpp.
#include CALLS

extern "C" Lent *LEND(const yardstick::Board &board) { return new Calls(board); }
