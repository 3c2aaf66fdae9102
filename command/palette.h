/* palette.h: the colours and letters of a picture. */
#ifndef PALETTE_H
#define PALETTE_H

#define PAPER "#fbfaf7"
#define GROUND "#f1efe8"
#define FRAME_LINE "#d9d4c7"
#define TITLE_TEXT "#2f3a3a"
#define QUIET_TEXT "#7b7f78"

#define OTHER_FILL "#dde5dc"
#define OTHER_LINE "#8fa39a"
#define OTHER_TEXT "#5c6f67"

#define HIT_FILL "#f3cf9f"
#define HIT_LINE "#b8702c"
#define HIT_TEXT "#74400f"

#define QUERY_LINE "#2c5f8a"

#define SANS "font-family=\"Helvetica, Arial, sans-serif\""
#define SERIF "font-family=\"Georgia, 'Times New Roman', serif\""

#endif
