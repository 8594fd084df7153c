/* A host of the library, whole: reads a view recipe, says what each material shows as, and
 * underlines what it could not read. To build and run it, at the root of this repository:
 *
 *   ./build.sh
 *   cc -Iinclude examples/underline.c target/staticlib/libchamrolak.a -o underline
 *   ./underline examples/recipes/errors.recipe
 *
 *   underline [--units N] [--depth N] [--nodes N] [--children N] [--records N] [FILE]
 *
 * Without FILE the recipe comes from standard input. The options lend less than there is, to see
 * what running out looks like. Exit status: 0 the recipe is good; 1 it has errors; 2 it could not
 * be read to its end, or the program was called wrongly; 3 the tables are damaged.
 *
 * There is no malloc here and nothing to free: every byte that the library writes is lent to it
 * from the arrays below.
 */
#include "chamrolak.h"
#include "recipe_tables.h"

#include <stdio.h>
#include <stdlib.h>
#include <string.h>

enum { GOOD = 0, HAS_ERRORS = 1, NOT_READ = 2, BAD_TABLES = 3 };

/* ---- What is lent ---- */

enum {
  MOST_TEXT = 65536,
  MOST_DEPTH = 512,
  MOST_NODES = 20000,
  MOST_CHILDREN = 20000,
  MOST_RECORDS = 100,
  MOST_UNITS = 1000000
};

static uint8_t stack[MOST_DEPTH * CHAMROLAK_STACK_BYTES];
static uint8_t scratch[MOST_DEPTH * CHAMROLAK_SCRATCH_BYTES];
static uint8_t nodes[MOST_NODES * CHAMROLAK_NODE_BYTES];
static uint8_t children[MOST_CHILDREN * CHAMROLAK_CHILD_BYTES];
static uint8_t records[MOST_RECORDS * CHAMROLAK_RECORD_BYTES];
static uint8_t report[CHAMROLAK_REPORT_BYTES];

/* How much of it; the options make these smaller. */
static struct {
  const char *option;
  uint32_t number;
} limits[] = {{"--units", MOST_UNITS},
              {"--depth", MOST_DEPTH},
              {"--children", MOST_CHILDREN},
              {"--nodes", MOST_NODES},
              {"--records", MOST_RECORDS}};

/* The limits stand in the order of their answers: 19, 20, 21, 22, 23. */
static size_t limit_of(uint32_t answer) { return limits[answer - CHAMROLAK_OUT_OF_UNITS].number; }

/* ---- The recipe's text and its tokens ---- */

static char text[MOST_TEXT + 1]; /* the last byte shows that a text is too long */
static size_t text_length;
static const char *text_name = "<standard input>";

/* One token more than the library takes, so that it is the library that says there are too many. */
static uint8_t tokens[(CHAMROLAK_MOST_TOKENS + 1) * CHAMROLAK_TOKEN_BYTES];
static size_t token_count;

/* What the tokenizer has to say about its own error. */
static const char *complaint = "";

/* "@word" is for later versions of the recipe language: these tables have no column for it. The
 * library answers 3 to any kind that is not below t. */
enum { KIND_OF_A_LATER_VERSION = RECIPE_KIND_COUNT };

static uint32_t token_kind(uint32_t token) {
  return chamrolak_word(tokens + (size_t)token * CHAMROLAK_TOKEN_BYTES, 0);
}

static uint32_t token_start(uint32_t token) {
  return chamrolak_word(tokens + (size_t)token * CHAMROLAK_TOKEN_BYTES, 1);
}

static uint32_t token_end(uint32_t token) {
  return chamrolak_word(tokens + (size_t)token * CHAMROLAK_TOKEN_BYTES, 2);
}

static int is_letter(char c) {
  return (c >= 'a' && c <= 'z') || (c >= 'A' && c <= 'Z') || c == '_';
}

static int is_digit(char c) { return c >= '0' && c <= '9'; }

static int is_blank(char c) { return c == ' ' || c == '\t' || c == '\r'; }

/* The kind of a word that the grammar spells out, else a name. */
static uint32_t kind_of_word(size_t start, size_t end) {
  uint32_t kind;
  for (kind = 0; kind < RECIPE_KIND_COUNT; kind++) {
    const char *name = recipe_kind_names[kind];
    int is_spelled =
        kind != RECIPE_KIND_NEWLINE && kind != RECIPE_KIND_WORD && kind != RECIPE_KIND_NUMBER;
    if (is_spelled && strlen(name) == end - start && memcmp(name, text + start, end - start) == 0)
      return kind;
  }
  return RECIPE_KIND_WORD;
}

static void complain(const char *about, uint32_t *kind) {
  complaint = about;
  *kind = CHAMROLAK_TOKENIZER_ERROR_KIND;
}

/* The token that begins here: gives its end, and its kind. */
static size_t read_token(size_t start, uint32_t *kind) {
  size_t end = start + 1;
  if (is_letter(text[start]) || text[start] == '@') {
    while (end < text_length && (is_letter(text[end]) || is_digit(text[end])))
      end++;
    *kind = text[start] == '@' ? (uint32_t)KIND_OF_A_LATER_VERSION : kind_of_word(start, end);
  } else if (is_digit(text[start])) {
    while (end < text_length && is_digit(text[end]))
      end++;
    *kind = RECIPE_KIND_NUMBER;
    if (end - start > 9)
      complain("a number has at most nine digits: shorten it", kind);
  } else {
    *kind = kind_of_word(start, end);
    if (*kind == RECIPE_KIND_WORD)
      complain("no word of a recipe begins with this character: remove it", kind);
  }
  return end;
}

static void add_token(uint32_t kind, size_t start, size_t end) {
  if (token_count <= CHAMROLAK_MOST_TOKENS)
    chamrolak_put_token(tokens, token_count++, kind, (uint32_t)start, (uint32_t)end);
}

/* Every line that has words ends in a newline token, which sits behind its last word. */
static void tokenize(void) {
  size_t at = 0, words_end = 0;
  int line_has_words = 0;
  while (at < text_length) {
    if (text[at] == '#') {
      while (at < text_length && text[at] != '\n')
        at++;
    } else if (text[at] == '\n') {
      if (line_has_words)
        add_token(RECIPE_KIND_NEWLINE, words_end, words_end);
      line_has_words = 0;
      at++;
    } else if (is_blank(text[at])) {
      at++;
    } else {
      uint32_t kind;
      words_end = read_token(at, &kind);
      add_token(kind, at, words_end);
      at = words_end;
      line_has_words = 1;
      if (kind == CHAMROLAK_TOKENIZER_ERROR_KIND)
        return;
    }
  }
  if (line_has_words)
    add_token(RECIPE_KIND_NEWLINE, words_end, words_end);
}

/* ---- Messages ---- */

static void print_kind(uint32_t kind) {
  if (kind == RECIPE_KIND_NEWLINE)
    printf("the end of the line");
  else if (kind == RECIPE_KIND_WORD)
    printf("a name");
  else if (kind == RECIPE_KIND_NUMBER)
    printf("a number");
  else
    printf("'%s'", recipe_kind_names[kind]);
}

/* The kinds that a record, or the report, says would have fitted. */
static void print_expected(const uint8_t *entry) {
  uint32_t kind, left = 0;
  for (kind = 0; kind < RECIPE_KIND_COUNT; kind++)
    left += (uint32_t)chamrolak_expects(entry, kind);
  if (left == 0)
    return;
  printf("      = expected ");
  for (kind = 0; kind < RECIPE_KIND_COUNT; kind++) {
    if (!chamrolak_expects(entry, kind))
      continue;
    print_kind(kind);
    left--;
    printf(left > 1 ? ", " : left == 1 ? " or " : "\n");
  }
}

/* Text of a stranger: what would move the cursor is not printed. */
static void print_text(size_t start, size_t end) {
  for (; start < end; start++) {
    unsigned char c = (unsigned char)text[start];
    putchar((c < ' ' && c != '\t') || c == 127 ? '?' : c);
  }
}

static size_t line_start(size_t at) {
  while (at > 0 && text[at - 1] != '\n')
    at--;
  return at;
}

static size_t line_end(size_t at) {
  while (at < text_length && text[at] != '\n')
    at++;
  return at;
}

static unsigned long line_number(size_t at) {
  unsigned long line = 1;
  size_t i;
  for (i = 0; i < at; i++)
    line += text[i] == '\n';
  return line;
}

/* Where a message stands: file, line and column, as compilers print it. */
static void print_place(size_t at) {
  printf("%s:%lu:%lu: error: ", text_name, line_number(at),
         (unsigned long)(at - line_start(at) + 1));
}

/* What is underlined: '^' under the word where the error arose, '~' under the rest of the mark. */
typedef struct {
  size_t word_start, word_end;
  size_t mark_start, mark_end;
} underlining;

static void print_underlined(underlining u) {
  size_t begin = line_start(u.word_start), end = line_end(u.word_start), at;
  /* At least one column, also where the word is the end of the line. */
  size_t word_end = u.word_end > u.word_start ? u.word_end : u.word_start + 1;
  size_t last = u.mark_end > word_end ? u.mark_end : word_end;
  if (last > end)
    last = word_end > end ? word_end : end;
  printf("%5lu | ", line_number(begin));
  print_text(begin, end);
  printf("\n      | ");
  for (at = begin; at < last; at++) {
    if (at >= u.word_start && at < word_end)
      putchar('^');
    else if (at >= u.mark_start && at < u.mark_end)
      putchar('~');
    else
      putchar(at < end && text[at] == '\t' ? '\t' : ' ');
  }
  putchar('\n');
}

static underlining of_end(void) {
  underlining u;
  u.word_start = u.mark_start = token_count > 0 ? token_end((uint32_t)token_count - 1) : 0;
  u.word_end = u.mark_end = u.word_start;
  return u;
}

/* The token count stands for the end of the recipe. */
static underlining of_token(uint32_t token) {
  underlining u;
  if (token == token_count)
    return of_end();
  u.word_start = u.mark_start = token_start(token);
  u.word_end = u.mark_end = token_end(token);
  return u;
}

/* An error that was mended: its mark covers what was given up. */
static void print_record(uint32_t record) {
  const uint8_t *entry = records + (size_t)record * CHAMROLAK_RECORD_BYTES;
  int at_end = chamrolak_word(entry, CHAMROLAK_RECORD_ERROR) == CHAMROLAK_UNRECOGNIZED_END;
  uint32_t token = chamrolak_word(entry, CHAMROLAK_RECORD_AT);
  underlining u = at_end ? of_end() : of_token(token);
  u.mark_start = chamrolak_word(entry, CHAMROLAK_RECORD_START);
  u.mark_end = chamrolak_word(entry, CHAMROLAK_RECORD_END);
  print_place(u.word_start);
  if (at_end) {
    printf("the recipe ends too soon\n");
  } else if (token_kind(token) == RECIPE_KIND_NEWLINE) {
    printf("the line ends too soon\n");
  } else {
    putchar('\'');
    print_text(u.word_start, u.word_end);
    printf("' does not fit here\n");
  }
  print_underlined(u);
  print_expected(entry);
}

/* ---- What the materials show as ---- */

static uint32_t child(uint32_t node, uint32_t number) {
  return chamrolak_child(nodes, children, node, number);
}

static uint32_t production(uint32_t node) {
  return chamrolak_node_word(nodes, node, CHAMROLAK_NODE_NUMBER);
}

/* The text under a node. */
static void print_node(uint32_t node) {
  print_text(chamrolak_node_word(nodes, node, CHAMROLAK_NODE_START),
             chamrolak_node_word(nodes, node, CHAMROLAK_NODE_END));
}

static void show_densities(uint32_t densities) {
  uint32_t first_number = child(densities, 1);
  switch (production(densities)) {
  case RECIPE_FROM_TO:
    printf("densities ");
    print_node(first_number);
    printf(" to ");
    print_node(child(densities, 3));
    break;
  case RECIPE_ABOVE:
    printf("densities above ");
    print_node(first_number);
    break;
  default:
    printf("densities below ");
    print_node(first_number);
  }
}

static void show_colour(uint32_t colour) {
  switch (production(colour)) {
  case RECIPE_MIX:
    printf("mix of ");
    show_colour(child(colour, 2));
    printf(" and ");
    show_colour(child(colour, 4));
    break;
  case RECIPE_BAD_MIX:
    printf("a colour that could not be read");
    break;
  default:
    print_node(colour);
  }
}

static void show_looks(uint32_t looks) {
  uint32_t look;
  if (production(looks) == RECIPE_NO_LOOKS)
    return;
  show_looks(child(looks, 0));
  look = child(looks, 1);
  switch (production(look)) {
  case RECIPE_COLOUR:
    printf(", ");
    show_colour(child(look, 1));
    break;
  case RECIPE_OPACITY:
    printf(", opacity ");
    print_node(child(look, 1));
    break;
  default:
    printf(", hidden");
  }
}

static void show_lines(uint32_t lines, uint32_t indent);

static void show_line(uint32_t line, uint32_t indent) {
  uint32_t first = child(line, 0);
  uint32_t i;
  if (production(line) == RECIPE_BAD_LINE)
    return;
  for (i = 0; i < indent; i++)
    printf("  ");
  switch (production(line)) {
  case RECIPE_TITLE_LINE:
    printf("title ");
    print_node(child(line, 1));
    putchar('\n');
    break;
  case RECIPE_REGION_LINE:
    printf("in ");
    print_node(child(first, 1));
    printf(":\n");
    show_lines(child(first, 4), indent + 1);
    break;
  default:
    print_node(child(first, 0));
    printf(": ");
    show_densities(child(first, 1));
    show_looks(child(first, 2));
    putchar('\n');
  }
}

static void show_lines(uint32_t lines, uint32_t indent) {
  if (production(lines) == RECIPE_NO_LINES)
    return;
  show_lines(child(lines, 0), indent);
  show_line(child(lines, 1), indent);
}

/* ---- Answers and refusals ---- */

/* What test of the check was failed, for the one who makes the tables. */
static const char *test_of(uint32_t refusal) {
  switch (refusal) {
  case CHAMROLAK_BAD_SIZES:
    return "a size, flag or set bit is out of range, or a list is not as long as the sizes say";
  case CHAMROLAK_BAD_CELL:
    return "an action or goto cell leads nowhere";
  case CHAMROLAK_BAD_PRODUCTION:
    return "a production has a symbol out of range or a wrong shape";
  case CHAMROLAK_SETS_NOT_CLOSED:
    return "a production can begin with what its first set lacks";
  case CHAMROLAK_BAD_ITEM:
    return "an item is out of range or out of order";
  case CHAMROLAK_WRONG_PAST:
    return "an item stands in a state that it cannot have come to";
  case CHAMROLAK_REDUCE_WITHOUT_ITEM:
    return "a cell reduces what no item of its state has read";
  default:
    return "an item lacks what must follow from it";
  }
}

static int refuse_tables(chamrolak_result refusal) {
  printf("The recipe tables are damaged: refusal %lu at place %lu, %s. Make them anew "
         "(host/rules: recipe_tables) and build the viewer with them.\n",
         (unsigned long)refusal.number, (unsigned long)refusal.value, test_of(refusal.number));
  return BAD_TABLES;
}

static int fail_at(underlining u, const char *sentence) {
  print_place(u.word_start);
  printf("%s\n", sentence);
  print_underlined(u);
  return NOT_READ;
}

static int ran_out(uint32_t answer, const char *of, const char *option) {
  printf("The recipe needs more than %lu %s: lend more (%s), or make the recipe simpler.\n",
         (unsigned long)limit_of(answer), of, option);
  return NOT_READ;
}

/* What every answer means for a person; the marks have been printed before. */
static int answer(chamrolak_result result) {
  uint32_t marks = chamrolak_word(report, CHAMROLAK_REPORT_RECORD_COUNT);
  int status;
  switch (result.number) {
  case CHAMROLAK_ACCEPTED:
    show_lines(result.value, 0);
    return marks == 0 ? GOOD : HAS_ERRORS;
  case CHAMROLAK_ACCEPTED_EARLY:
    show_lines(result.value, 0);
    return fail_at(of_token(chamrolak_word(report, CHAMROLAK_REPORT_AT)),
                   "the recipe was read up to here: mend this line, and what follows is read too");
  case CHAMROLAK_UNRECOGNIZED_TOKEN:
    if (token_kind(result.value) == KIND_OF_A_LATER_VERSION)
      return fail_at(of_token(result.value), "this viewer is too old for that word: remove it, or "
                                             "use a viewer whose tables have it");
    status = fail_at(of_token(result.value), "from this word on nothing could be read: mend it");
    print_expected(report);
    return status;
  case CHAMROLAK_UNRECOGNIZED_END:
    status = fail_at(of_end(), "the recipe ends too soon: add what is missing");
    print_expected(report);
    return status;
  case CHAMROLAK_EXTRA_TOKEN:
    return fail_at(of_token(result.value),
                   "the recipe is complete before this word: remove it and what follows");
  case CHAMROLAK_TOKENIZER_ERROR:
    return fail_at(of_token(result.value), complaint);
  case CHAMROLAK_BAD_TOKENS:
    printf("The recipe has more than %d words: split it.\n", CHAMROLAK_MOST_TOKENS);
    return NOT_READ;
  case CHAMROLAK_OUT_OF_UNITS:
    return ran_out(result.number, "steps", "--units");
  case CHAMROLAK_OUT_OF_DEPTH:
    return ran_out(result.number, "levels of nesting", "--depth");
  case CHAMROLAK_OUT_OF_CHILDREN:
    return ran_out(result.number, "child entries", "--children");
  case CHAMROLAK_OUT_OF_NODES:
    return ran_out(result.number, "nodes", "--nodes");
  case CHAMROLAK_OUT_OF_RECORDS:
    return ran_out(result.number, "marked errors", "--records");
  default:
    return refuse_tables(result);
  }
}

static int parse(void) {
  uint32_t record, marks;
  chamrolak_result result;
  chamrolak_rooms rooms;
  size_t depth = limit_of(CHAMROLAK_OUT_OF_DEPTH);
  rooms.stack = stack;
  rooms.stack_length = depth * CHAMROLAK_STACK_BYTES;
  rooms.scratch = scratch;
  rooms.scratch_length = depth * CHAMROLAK_SCRATCH_BYTES;
  rooms.nodes = nodes;
  rooms.nodes_length = limit_of(CHAMROLAK_OUT_OF_NODES) * CHAMROLAK_NODE_BYTES;
  rooms.children = children;
  rooms.children_length = limit_of(CHAMROLAK_OUT_OF_CHILDREN) * CHAMROLAK_CHILD_BYTES;
  rooms.records = records;
  rooms.records_length = limit_of(CHAMROLAK_OUT_OF_RECORDS) * CHAMROLAK_RECORD_BYTES;
  rooms.report = report;
  result = chamrolak_drive_with(&recipe_tables, tokens, token_count * CHAMROLAK_TOKEN_BYTES, 0,
                                (uint32_t)limit_of(CHAMROLAK_OUT_OF_UNITS), &rooms);
  /* Nothing has been written by a refusal: the report is still all 0, so it counts no record. */
  marks = chamrolak_word(report, CHAMROLAK_REPORT_RECORD_COUNT);
  for (record = 0; record < marks; record++)
    print_record(record);
  return answer(result);
}

/* ---- The program ---- */

static int read_text(const char *path) {
  FILE *file = stdin;
  int failed;
  if (path != NULL) {
    text_name = path;
    file = fopen(path, "rb");
    if (file == NULL) {
      perror(path);
      return 0;
    }
  }
  text_length = fread(text, 1, sizeof text, file);
  failed = ferror(file);
  if (file != stdin)
    fclose(file);
  if (failed) {
    perror(text_name);
    return 0;
  }
  if (text_length > MOST_TEXT) {
    printf("The recipe is longer than %d bytes: split it.\n", MOST_TEXT);
    return 0;
  }
  return 1;
}

/* An option makes its limit smaller; what is lent in all cannot grow. */
static int set_limit(const char *option, const char *value) {
  size_t i;
  for (i = 0; i < sizeof limits / sizeof limits[0]; i++) {
    if (strcmp(option, limits[i].option) == 0) {
      char *end;
      unsigned long number = strtoul(value, &end, 10);
      if (*value == '\0' || *end != '\0' || number > limits[i].number)
        return 0;
      limits[i].number = (uint32_t)number;
      return 1;
    }
  }
  return 0;
}

int main(int argc, char **argv) {
  chamrolak_result verdict;
  const char *path = NULL;
  int i = 1;
  for (; i + 1 < argc && strncmp(argv[i], "--", 2) == 0; i += 2) {
    if (!set_limit(argv[i], argv[i + 1]))
      break;
  }
  if (i + 1 == argc && strncmp(argv[i], "--", 2) != 0)
    path = argv[i++];
  if (i < argc) {
    printf("usage: underline [--units N] [--depth N] [--nodes N] [--children N] [--records N] "
           "[FILE]\nEach N is at most what the program has to lend.\n");
    return NOT_READ;
  }

  /* Once, at start-up: from here on every recipe is driven without checking the tables again. */
  verdict = chamrolak_check_tables(&recipe_tables);
  if (verdict.number != CHAMROLAK_PASSES)
    return refuse_tables(verdict);
  if (!read_text(path))
    return NOT_READ;
  tokenize();
  return parse();
}
