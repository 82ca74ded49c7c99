#include "os.h"
#define STOP 0
#define UP 1
#define DOWN 2
#define CLOSED 240
#define SEAL 236
#define PINCH 180

DeclareTask(Lift);
DeclareResource(Drive);

// The text begins in the middle of a travel: the button is held, and the window is on its way up.
static volatile uint8_t motor = UP;
static volatile uint8_t position = 100;
static volatile bool pinched;

// A pulse of the Hall sensor: the window has moved by one step.
ISR(Hall) {
  if (motor == UP) {
    position = position + 1;
  }
  if (motor == DOWN) {
    position = position - 1;
  }
}

// The motor's current has been converted. Near the seal it rises by itself and says nothing.
ISR(Current) {
  uint8_t current = oschk_input();
  GetResource(Drive);
  if (motor == UP && position < SEAL && current > PINCH) {
    pinched = true;
    motor = DOWN;
  }
  ReleaseResource(Drive);
}

// Every 10 ms while the button is held.
TASK(Lift) {
  if (position < CLOSED) {
    if (!pinched) {
      motor = UP;
    }
  } else {
    motor = STOP;
  }
  assert(!pinched || motor != UP);
  TerminateTask();
}
