#include "os.h"
#define FULL 100

DeclareTask(Heat);

static bool due;  // Heat has a request that hasn't begun
static uint8_t duty;

// In place of the alarm.
ISR(Every10ms) {
  if (!due) {
    due = true;
    ActivateTask(Heat);
  }
}

TASK(Heat) {
  due = false;
  if (duty < FULL) {
    duty = duty + 1;
  }
  TerminateTask();
}
