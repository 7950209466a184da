"""Lines of public-domain songs and proverbs, each with the encodings that old files of the language have."""
CORPORA = {
    "russian": (
        ("cp1251", "koi8-r"),
        """Во поле берёза стояла
Во поле кудрявая стояла
Люли люли стояла
Некому берёзу заломати
Некому кудряву заломати
Калинка калинка калинка моя
В саду ягода малинка малинка моя
Ах под сосною под зелёною
Спать положите вы меня
Не слышны в саду даже шорохи
Всё здесь замерло до утра
Эх дубинушка ухнем
Степь да степь кругом
Путь далёк лежит
В той степи глухой
Умирал ямщик
Вечерний звон вечерний звон
Как много дум наводит он""".splitlines(),
    ),
    "ukrainian": (
        ("cp1251",),
        """Ніч яка місячна зоряна ясная
Видно хоч голки збирай
Вийди коханая працею зморена
Хоч на хвилиночку в гай
Ой у лузі червона калина похилилася
Чогось наша славна Україна зажурилася
А ми тую червону калину підіймемо
А ми нашу славну Україну розвеселимо
Їхав козак за Дунай
Сказав дівчино прощай
Ти конику вороненький
Неси та гуляй""".splitlines(),
    ),
    "greek": (
        ("cp1253", "iso8859-7"),
        """Σε γνωρίζω από την κόψη
του σπαθιού την τρομερή
σε γνωρίζω από την όψη
που με βία μετράει τη γη
Απ' τα κόκκαλα βγαλμένη
των Ελλήνων τα ιερά
και σαν πρώτα ανδρειωμένη
χαίρε ω χαίρε Ελευθεριά
Μήλο μου κόκκινο ρόιδο βαμμένο
γιατί με μάρανες τον πικραμένο
Παένω κι έρχομαι μα δε σε βρίσκω""".splitlines(),
    ),
    "hebrew": (
        ("cp1255",),
        """הבה נגילה הבה נגילה
הבה נגילה ונשמחה
עורו אחים בלב שמח
שלום עליכם מלאכי השרת
כל עוד בלבב פנימה
נפש יהודי הומיה
ולפאתי מזרח קדימה
עין לציון צופיה
עוד לא אבדה תקותנו
התקוה בת שנות אלפים
להיות עם חפשי בארצנו
ארץ ציון וירושלים""".splitlines(),
    ),
    "japanese": (
        ("shift_jis", "euc_jp"),
        """さくらさくら
やよいの空は見わたす限り
かすみか雲か匂いぞ出ずる
いざやいざや見にゆかん
うさぎ追いしかの山
小鮒釣りしかの川
夢は今もめぐりて
忘れがたき故郷
春高楼の花の宴
めぐる盃影さして
夕焼小焼の赤とんぼ
負われて見たのはいつの日か
山の畑の桑の実を
小籠に摘んだはまぼろしか""".splitlines(),
    ),
    "korean": (
        ("euc_kr",),
        """아리랑 아리랑 아라리요
아리랑 고개로 넘어간다
나를 버리고 가시는 님은
십리도 못가서 발병난다
청천 하늘엔 별도 많고
우리네 가슴엔 수심도 많다
나의 살던 고향은 꽃피는 산골
복숭아꽃 살구꽃 아기 진달래
울긋불긋 꽃대궐 차리인 동네
그 속에서 놀던 때가 그립습니다""".splitlines(),
    ),
    "simplified": (
        ("gb18030",),
        """好一朵美丽的茉莉花
芬芳美丽满枝桠
又香又白人人夸
让我来将你摘下
送给别人家
长亭外古道边芳草碧连天
晚风拂柳笛声残夕阳山外山
天之涯地之角知交半零落
一壶浊酒尽余欢今宵别梦寒
在那遥远的地方有位好姑娘
人们走过她的帐房都要回头留恋地张望""".splitlines(),
    ),
    "traditional": (
        ("big5",),
        """好一朵美麗的茉莉花
芬芳美麗滿枝椏
又香又白人人誇
讓我來將你摘下
送給別人家
長亭外古道邊芳草碧連天
晚風拂柳笛聲殘夕陽山外山
天之涯地之角知交半零落
一壺濁酒盡餘歡今宵別夢寒
在那遙遠的地方有位好姑娘""".splitlines(),
    ),
    "polish": (
        ("cp1250",),
        """Jeszcze Polska nie zginęła
kiedy my żyjemy
Co nam obca przemoc wzięła
szablą odbierzemy
Góralu czy ci nie żal
odchodzić od stron ojczystych
świerkowych lasów i hal
i tych potoków srebrzystych
Szła dzieweczka do laseczka
do zielonego
napotkała myśliweczka
bardzo szwarnego
Płynie Wisła płynie po polskiej krainie""".splitlines(),
    ),
    "czech": (
        ("cp1250",),
        """Kde domov můj kde domov můj
voda hučí po lučinách
bory šumí po skalinách
v sadě skví se jara květ
zemský ráj to na pohled
Ach synku synku doma li jsi
tatíček se ptá oral li jsi
Když jsem já sloužil to první léto
vysloužil jsem si kuřátko za to
Okolo Hradce v malé zahrádce
rostou tam tři růže""".splitlines(),
    ),
    "hungarian": (
        ("cp1250",),
        """Tavaszi szél vizet áraszt
virágom virágom
Minden madár társat választ
virágom virágom
Isten áldd meg a magyart
jó kedvvel bőséggel
nyújts feléje védő kart
ha küzd ellenséggel
bal sors akit régen tép
hozz rá víg esztendőt
Érik a szőlő hajlik a vessző""".splitlines(),
    ),
    "german": (
        ("cp1252",),
        """Am Brunnen vor dem Tore
da steht ein Lindenbaum
ich träumt in seinem Schatten
so manchen süßen Traum
Ich schnitt in seine Rinde
so manches liebe Wort
es zog in Freud und Leide
zu ihm mich immer fort
Die Blümelein sie schlafen
schon längst im Mondenschein
sie nicken mit den Köpfen
auf ihren Stängelein
Über allen Gipfeln ist Ruh""".splitlines(),
    ),
    "french": (
        ("cp1252",),
        """Au clair de la lune mon ami Pierrot
prête moi ta plume pour écrire un mot
ma chandelle est morte je n’ai plus de feu
ouvre moi ta porte pour l’amour de Dieu
Frère Jacques dormez vous
sonnez les matines
À la claire fontaine m’en allant promener
j’ai trouvé l’eau si belle que je m’y suis baigné
il y a longtemps que je t’aime
jamais je ne t’oublierai""".splitlines(),
    ),
    "spanish": (
        ("cp1252",),
        """De la Sierra Morena cielito lindo vienen bajando
un par de ojitos negros cielito lindo de contrabando
ay ay ay ay canta y no llores
porque cantando se alegran
cielito lindo los corazones
Si Adelita se fuera con otro
la seguiría por tierra y por mar
¿Qué será de mí mañana?
El niño soñó con un pájaro
Este lunar que tienes junto a la boca
no se lo des a nadie que a mí me toca""".splitlines(),
    ),
    "portuguese": (
        ("cp1252",),
        """Atirei o pau no gato tô
mas o gato tô não morreu reu reu
Dona Chica cá admirou se se
do berrô do berrô que o gato deu
Ciranda cirandinha vamos todos cirandar
vamos dar a meia volta volta e meia vamos dar
o anel que tu me deste era vidro e se quebrou
o amor que tu me tinhas era pouco e se acabou
Não há coração que não sofra a paixão""".splitlines(),
    ),
    "swedish": (
        ("cp1252",),
        """Du gamla du fria du fjällhöga nord
du tysta du glädjerika sköna
jag hälsar dig vänaste land uppå jord
din sol din himmel dina ängder gröna
Vem kan segla förutan vind
vem kan ro utan åror
vem kan skiljas från vännen sin
utan att fälla tårar""".splitlines(),
    ),
    "turkish": (
        ("cp1254",),
        """Üsküdar'a gider iken aldı da bir yağmur
kâtibimin setresi uzun eteği çamur
kâtip uykudan uyanmış gözleri mahmur
kâtip benim ben kâtibin el ne karışır
kâtibime kolalı da gömlek ne güzel yaraşır
Çanakkale içinde vurdular beni
ölmeden mezara koydular beni
of gençliğim eyvah""".splitlines(),
    ),
    "thai": (
        ("cp874",),
        """ลอยลอยกระทง
วันเพ็ญเดือนสิบสอง น้ำก็นองเต็มตลิ่ง
เราทั้งหลายชายหญิง
สนุกกันจริงวันลอยกระทง
ลอยกระทงกันแล้ว
ขอเชิญน้องแก้วออกมารำวง
รำวงวันลอยกระทง
บุญจะส่งให้เราสุขใจ""".splitlines(),
    ),
}
