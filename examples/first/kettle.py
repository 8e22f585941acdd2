from plant import Controller

warm = 17
with Controller("heater.forec", inputs={"button": 0, "stop": 0}) as controller:
    while warm < 20:
        outputs = controller.step(warm=warm)
        warm += outputs["heat"]
print(controller.ended, "warm", warm)
