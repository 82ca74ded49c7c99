#include "os.h"
#define FULL 100

DeclareTask(Heat);

static uint8_t duty;

ISR(Every10ms) {
  ActivateTask(Heat);
}

TASK(Heat) {
  if (duty < FULL) {
    duty = duty + 1;
  }
  TerminateTask();
}
