#include "os.h"
#define FRAMES 2

DeclareTask(Forward);
DeclareResource(Ring);

static uint16_t ring[FRAMES];  // the identifiers of the frames that wait
static uint8_t head;           // where the next frame goes
static uint8_t tail;           // where the oldest one is
static uint8_t count;
static uint8_t lost;
static uint16_t sent;          // what was sent last on the other bus

// A frame has come on the body bus.
ISR(Receive) {
  uint16_t identifier = oschk_input();
  GetResource(Ring);
  if (count < FRAMES) {
    ring[head] = identifier;
    head = (head + 1) % FRAMES;
    count = count + 1;
    ActivateTask(Forward);
  } else {
    lost = lost + 1;
  }
  ReleaseResource(Ring);
}

// One request for each frame in the ring.
TASK(Forward) {
  uint16_t identifier = 0;
  GetResource(Ring);
  assert(count > 0);
  identifier = ring[tail];
  tail = (tail + 1) % FRAMES;
  count = count - 1;
  ReleaseResource(Ring);
  sent = identifier;
  TerminateTask();
}
