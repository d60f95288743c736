// The line of output that the calling thread gathers.
#ifndef LINE_H
#define LINE_H

// Sends it as far as it goes. Returns 0, or -1 if the output refuses it.
int line_send(void);

#endif
