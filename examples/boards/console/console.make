root main from main
pulses none
