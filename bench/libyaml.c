// Parses a file by libyaml and prints how many events it has: the peer of our reader of YAML. Link with -lyaml.
#include <stdio.h>
#include <yaml.h>

int main(int count, char **words) {
  FILE *file = count > 1 ? fopen(words[1], "rb") : NULL;
  yaml_parser_t parser;
  yaml_event_t event;
  long events = 0;
  if (!file || !yaml_parser_initialize(&parser)) return 1;
  yaml_parser_set_input_file(&parser, file);
  for (int last = 0; !last; events++) {
    if (!yaml_parser_parse(&parser, &event)) return 1;
    last = event.type == YAML_STREAM_END_EVENT;
    yaml_event_delete(&event);
  }
  yaml_parser_delete(&parser);
  printf("%ld\n", events);
  return 0;
}
