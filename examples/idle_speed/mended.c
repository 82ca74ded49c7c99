#include "os.h"
#define SAMPLES 3
#define TARGET 800
#define BASE 40
#define OPEN 100

DeclareTask(Crank);
DeclareTask(Control);
DeclareTask(Throttle);

// Revolutions a minute: idling, with a load, and after the pedal was let go.
static const uint16_t recorded[SAMPLES] = { 820, 640, 2900 };
static uint16_t speed;
static uint8_t duty;  // of the idle valve, in hundredths

TASK(Crank) {
  for (uint8_t i = 0; i < SAMPLES; i++) {
    speed = recorded[i];
    ActivateTask(Control);
  }
  TerminateTask();
}

TASK(Control) {
  int32_t error = TARGET - speed;
  int32_t wanted = BASE + (error >> 4);
  if (wanted < 0) {
    wanted = 0;
  }
  if (wanted > OPEN) {
    wanted = OPEN;
  }
  duty = wanted;
  ActivateTask(Throttle);
  TerminateTask();
}

TASK(Throttle) {
  assert(duty <= OPEN);
  assert(speed <= TARGET || duty <= BASE);
  TerminateTask();
}
