/* xml.h: text from outside in an XML document. */
#ifndef XML_H
#define XML_H

/* Prints a text so that it may stand in an element or an attribute. What XML or UTF-8 does not allow becomes a question mark. */
void xml_print(const char *text);

#endif
