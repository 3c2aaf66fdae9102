/* status.h: what the command ends with. 1 says that a file was read and is refused, and nothing else. */
#ifndef STATUS_H
#define STATUS_H

enum status {
    STATUS_GOOD = 0,
    STATUS_REFUSED = 1,
    STATUS_WRONG = 2 /* wrong use, a question that cannot be asked, a file that cannot be read, output that cannot be written */
};

#endif
